#define _GNU_SOURCE
#include "guarded.h"

#include <signal.h>
#include <stdio.h>
#include <stdlib.h>
#include <string.h>
#include <sys/mman.h>
#include <unistd.h>

static void *must_map(void *memory)
{
    if (memory != MAP_FAILED)
        return memory;
    perror("guarded memory");
    exit(1);
}

void make_guarded(struct guarded *guarded, size_t room)
{
    size_t page = (size_t)sysconf(_SC_PAGESIZE);
    guarded->room = (room + page - 1) / page * page;
    int file = memfd_create("text", 0);
    if (file < 0 || ftruncate(file, (off_t)guarded->room) != 0) {
        perror("guarded memory");
        exit(1);
    }
    uint8_t *fence = must_map(mmap(NULL, guarded->room + 2 * page, PROT_NONE, MAP_PRIVATE | MAP_ANONYMOUS, -1, 0));
    guarded->readable = must_map(mmap(fence + page, guarded->room, PROT_READ, MAP_SHARED | MAP_FIXED, file, 0));
    guarded->writable = must_map(mmap(NULL, guarded->room, PROT_READ | PROT_WRITE, MAP_SHARED, file, 0));
    close(file);
}

const uint8_t *guard_text(struct guarded *guarded, const uint8_t *bytes, size_t length)
{
    if (length > guarded->room) {
        fprintf(stderr, "guarded memory: a text of %zu bytes\n", length);
        exit(1);
    }
    size_t start = guarded->room - length;
    if (length > 0)
        memcpy(guarded->writable + start, bytes, length);
    return guarded->readable + start;
}

static const char *(*at_fault)(void);

static void end_at_fault(int number)
{
    const char *what = at_fault();
    (void)number;
    if (write(STDOUT_FILENO, "a fault at ", 11) < 0 || write(STDOUT_FILENO, what, strlen(what)) < 0)
        _exit(2);
    _exit(1);
}

void say_at_fault(const char *(*what)(void))
{
    at_fault = what;
    signal(SIGSEGV, end_at_fault);
    signal(SIGBUS, end_at_fault);
}
