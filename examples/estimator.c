/* The smallest caller of the library: asks three things of a seven-bus grid and prints the replies. */
#include "wozgrzyt.h"

#include <stdio.h>
#include <string.h>

#define GRID                                                                                             \
    "grid\t7\n"                                                                                          \
    "bus\t1\tI\tY\nbus\t2\tZ\tY\nbus\t3\tZ\tY\nbus\t4\tI\tY\nbus\t5\tZ\tY\nbus\t6\tI\tY\nbus\t7\tI\tY\n" \
    "line\t1\t2\nline\t2\t3\nline\t3\t4\nline\t3\t7\nline\t4\t5\nline\t5\t6\n"

static const char without_units[] = GRID "end\n";
static const char unit_at_3[] = GRID "pmu\t3\nend\n";
static const char steps[] = "step\t3\tO\nstep\t2\tN\t3\nstep\t6\tZ\t5\nend\n";

static const uint8_t *bytes(const char *text)
{
    return (const uint8_t *)text;
}

static void print_reply(const char *question, uint32_t result, const uint8_t *set)
{
    if (result != 0) {
        printf("%s: refusal %u at place %u\n", question, wz_number(result), wz_place(result));
        return;
    }
    printf("%s: buses", question);
    for (unsigned bus = 1; bus <= WZ_MOST_BUSES; bus++)
        if (wz_has(set, bus))
            printf(" %u", bus);
    printf("\n");
}

int main(void)
{
    uint8_t set[WZ_SET_BYTES] = {0};
    uint32_t result = wz_observed(bytes(unit_at_3), strlen(unit_at_3), set, sizeof set);
    print_reply("observed by a unit at 3", result, set);

    result = wz_fewest(bytes(without_units), strlen(without_units), 2, set, sizeof set);
    print_reply("fewest units, at most 2", result, set);

    result = wz_replay(bytes(unit_at_3), strlen(unit_at_3), bytes(steps), strlen(steps), set, sizeof set);
    print_reply("three steps, the third wrong", result, set);
    return 0;
}
