/* Replays one step text many times, for bench/run. It is linked with the library, or with tests/c's document 01 under
   the library's name.
   usage: c_calls STEPS TIMES    with the case text on standard input; prints the last result and the set */
#include "wozgrzyt.h"

#include <stdio.h>
#include <stdlib.h>

static uint8_t case_text[8193], step_text[16385];

int main(int argc, char **argv)
{
    uint8_t set[8] = {0};
    uint32_t result = 0;
    if (argc != 3)
        return 2;
    FILE *steps = fopen(argv[1], "rb");
    if (steps == NULL)
        return 2;
    size_t case_len = fread(case_text, 1, sizeof case_text, stdin);
    size_t step_len = fread(step_text, 1, sizeof step_text, steps);
    fclose(steps);
    for (long times = atol(argv[2]); times > 0; times--)
        result = wz_replay(case_text, case_len, step_text, step_len, set, sizeof set);
    printf("%lu", (unsigned long)result);
    for (int byte = 0; byte < 8; byte++)
        printf(" %u", (unsigned)set[byte]);
    printf("\n");
    return 0;
}
