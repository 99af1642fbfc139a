/* The stack of a call: include/wozgrzyt.h promises for each how many bytes it takes at most. Each call runs in a thread
 * whose stack is painted, on an input that goes deep. The paint that is left tells how deep it went. */
#define _POSIX_C_SOURCE 200809L
#include "asking.h"
#include "boundary.h"
#include "checking.h"
#include "wozgrzyt.h"

#include <pthread.h>
#include <stdio.h>
#include <stdlib.h>
#include <string.h>

enum { PAINTED = 1 << 20, PAINT = 0xa5, LINKER = 3000 };

struct painted_call {
    struct question question;
    uint8_t *stack;
    uint32_t result;
    size_t depth;
};

static void *call_once(void *argument)
{
    struct painted_call *call = argument;
    uint8_t set[8];
    call->result = library_reply(&call->question, set, sizeof set);
    const uint8_t *deepest = call->stack;
    while (*deepest == PAINT)
        deepest++;
    call->depth = (size_t)((uintptr_t)set - (uintptr_t)deepest);
    return NULL;
}

/* The call gives `result`, and takes some stack below its caller. With what the dynamic linker may take at a first call
 * it is at most `most`. Prints how much it is. */
static void expect_shallow(const char *name, struct question question, uint32_t result, size_t most)
{
    struct painted_call call = {.question = question};
    pthread_attr_t attributes;
    pthread_t thread;
    void *stack;
    bool ran = posix_memalign(&stack, 4096, PAINTED) == 0;
    if (ran) {
        call.stack = stack;
        memset(stack, PAINT, PAINTED);
        pthread_attr_init(&attributes);
        pthread_attr_setstack(&attributes, stack, PAINTED);
        ran = pthread_create(&thread, &attributes, call_once, &call) == 0 && pthread_join(thread, NULL) == 0;
        pthread_attr_destroy(&attributes);
        free(stack);
    }
    printf("%s: %zu bytes, at most %zu\n", name, call.depth, most);
    check(ran && call.result == result && call.depth > 0 && call.depth + LINKER <= most, name);
}

/* 64 buses on four boards of 4 by 4, joined as a rook moves, with units at the first `units` of them. */
static const char *boards(int units)
{
    static char text[8192];
    size_t length = (size_t)sprintf(text, "grid\t64\n");
    for (int bus = 1; bus <= 64; bus++)
        length += (size_t)sprintf(text + length, "bus\t%d\tI\tY\n", bus);
    for (int a = 0; a < 64; a++)
        for (int b = a + 1; b < 64; b++)
            if (a / 16 == b / 16 && (a / 4 == b / 4 || a % 4 == b % 4))
                length += (size_t)sprintf(text + length, "line\t%d\t%d\n", a + 1, b + 1);
    for (int bus = 1; bus <= units; bus++)
        length += (size_t)sprintf(text + length, "pmu\t%d\n", bus);
    strcpy(text + length, "end\n");
    return text;
}

/* 1,024 steps: the 64 buses by their own units, sixteen times, so that step 65 is the first bad one. */
static const char *many_steps(void)
{
    static char text[16384];
    size_t length = 0;
    for (int step = 0; step < 1024; step++)
        length += (size_t)sprintf(text + length, "step\t%d\tO\n", step % 64 + 1);
    strcpy(text + length, "end\n");
    return text;
}

void check_stack(void)
{
    expect_shallow("the stack of wz_observed", ask_observed(boards(8)), 0, WZ_OBSERVED_STACK);
    expect_shallow("the stack of wz_unconfirmed", ask_unconfirmed(boards(64)), 0, WZ_UNCONFIRMED_STACK);
    expect_shallow("the stack of wz_fewest", ask_fewest(boards(0), WZ_MOST_BUDGET), WZ_NO_ADDITION, WZ_FEWEST_STACK);
    expect_shallow("the stack of wz_replay", ask_replay(boards(64), many_steps()), 6508, WZ_REPLAY_STACK);
}
