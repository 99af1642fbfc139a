/* Calls from several threads at once, each on a set of its own. */
#include "asking.h"
#include "boundary.h"
#include "checking.h"

#include <pthread.h>

enum { THREADS = 4, ROUNDS = 2000 };

struct caller {
    pthread_t thread;
    struct question question;
    uint32_t result;
    uint8_t first_byte;
    unsigned long wrong;
};

static void *call_over_and_over(void *argument)
{
    struct caller *caller = argument;
    for (int round = 0; round < ROUNDS; round++) {
        uint8_t set[8] = {0};
        uint32_t result = library_reply(&caller->question, set, sizeof set);
        caller->wrong += result != caller->result || set[0] != caller->first_byte;
    }
    return NULL;
}

void check_threads(void)
{
    struct caller callers[THREADS] = {
        {.question = ask_observed(SEVEN_UNIT_3), .first_byte = 0x4f},
        {.question = ask_fewest(SEVEN "end\n", 2), .first_byte = 0x09},
        {.question = ask_replay(SEVEN_UNIT_3, "step\t3\tO\nend\n"), .first_byte = 0x04},
        {.question = ask_replay(SEVEN_UNIT_3, "step\t3\tO\nstep\t3\tO\nend\n"), .result = 208},
    };
    bool started = true;
    unsigned long wrong = 0;
    for (int i = 0; i < THREADS; i++)
        started = started && pthread_create(&callers[i].thread, NULL, call_over_and_over, &callers[i]) == 0;
    for (int i = 0; started && i < THREADS; i++) {
        pthread_join(callers[i].thread, NULL);
        wrong += callers[i].wrong;
    }
    check(started && wrong == 0, "four threads that call at once");
}
