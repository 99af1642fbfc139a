#define _GNU_SOURCE
#include "running.h"

#include <fcntl.h>
#include <sched.h>
#include <signal.h>
#include <stdio.h>
#include <stdlib.h>
#include <string.h>
#include <sys/ioctl.h>
#include <sys/mman.h>
#include <sys/wait.h>
#include <unistd.h>

enum { MOST_WORDS = 20, MOST_WAITS = 2000 };

const char *const program_names[PROGRAM_COUNT] = {"day", "plan", "rounds"};

static char *commands[PROGRAM_COUNT][MOST_WORDS];
static bool emulated;

void prepare_running(char **words, int count)
{
    int emulator_words = count - PROGRAM_COUNT;
    if (emulator_words >= MOST_WORDS - 1)
        exit(2);
    emulated = emulator_words > 0;
    for (int program = 0; program < PROGRAM_COUNT; program++) {
        for (int i = 0; i < emulator_words; i++)
            commands[program][i] = words[PROGRAM_COUNT + i];
        commands[program][emulator_words] = words[program];
    }
    signal(SIGPIPE, SIG_IGN);
}

bool is_emulated(void)
{
    return emulated;
}

static void must(bool holds, const char *what)
{
    if (holds)
        return;
    perror(what);
    exit(1);
}

/* A program may end before it has read all: what it leaves is not written. */
static void write_all(int to, const uint8_t *input, size_t length)
{
    for (size_t at = 0; at < length;) {
        ssize_t written = write(to, input + at, length - at);
        if (written <= 0)
            return;
        at += (size_t)written;
    }
}

static void write_byte_by_byte(int to, const uint8_t *input, size_t length)
{
    for (size_t at = 0; at < length; at++) {
        int unread = 1;
        if (write(to, input + at, 1) != 1)
            return;
        for (int waits = 0; unread > 0 && waits < MOST_WAITS; waits++) {
            sched_yield();
            if (ioctl(to, FIONREAD, &unread) != 0)
                return;
        }
    }
}

static int open_file_of(const uint8_t *input, size_t length)
{
    int file = memfd_create("input", MFD_CLOEXEC);
    must(file >= 0, "a file for the input");
    write_all(file, input, length);
    must(lseek(file, 0, SEEK_SET) == 0, "a file for the input");
    return file;
}

static void become(enum program program, int input, int output)
{
    signal(SIGPIPE, SIG_DFL);
    if (input < 0)
        close(STDIN_FILENO);
    else
        must(dup2(input, STDIN_FILENO) >= 0, "standard input");
    must(dup2(output, STDOUT_FILENO) >= 0, "standard output");
    execv(commands[program][0], commands[program]);
    perror(commands[program][0]);
    _exit(127);
}

static void take_printed(int from, struct printed *printed)
{
    char rest[256];
    ssize_t got = 1;
    printed->length = 0;
    while (got > 0) {
        size_t room = PRINTED_ROOM - printed->length;
        got = room > 0 ? read(from, printed->bytes + printed->length, room) : read(from, rest, sizeof rest);
        if (got > 0 && room > 0)
            printed->length += (size_t)got;
    }
}

void run_program(enum program program, enum feeding feeding, const uint8_t *input, size_t length,
                 struct printed *printed)
{
    int in[2] = {-1, -1}, out[2], status;
    if (feeding == FEED_FILE)
        in[0] = open_file_of(input, length);
    else if (feeding != FEED_CLOSED)
        must(pipe2(in, O_CLOEXEC) == 0, "pipe");
    must(pipe2(out, O_CLOEXEC) == 0, "pipe");
    pid_t child = fork();
    must(child >= 0, "fork");
    if (child == 0)
        become(program, in[0], out[1]);
    close(out[1]);
    if (in[0] >= 0)
        close(in[0]);
    if (feeding == FEED_BYTES)
        write_byte_by_byte(in[1], input, length);
    else if (feeding == FEED_PIPE)
        write_all(in[1], input, length);
    if (in[1] >= 0)
        close(in[1]);
    take_printed(out[0], printed);
    close(out[0]);
    must(waitpid(child, &status, 0) == child, "waitpid");
    printed->ended_well = WIFEXITED(status) && WEXITSTATUS(status) == 0;
}
