/* What the calls do with the memory lent, at every length and at both ends of the set; and with odd budgets. */
#include "boundary.h"
#include "checking.h"
#include "expecting.h"

#include <stdio.h>
#include <string.h>

#define ALL_OBSERVED SEVEN "pmu\t1\npmu\t4\nend\n"

static void check_lent_lengths(void)
{
    static const size_t lengths[] = {0, 1, 2, 3, 4, 5, 6, 7, 8, 9, 16, 64};
    for (size_t i = 0; i < sizeof lengths / sizeof *lengths; i++) {
        uint32_t result = lengths[i] < 8 ? 6 : 0;
        char name[60];
        snprintf(name, sizeof name, "%zu bytes lent for the set", lengths[i]);
        expect_reply(name, ask_observed(SEVEN_UNIT_3), lengths[i], result, "1 2 3 4 7");
        expect_reply(name, ask_unconfirmed(ALL_OBSERVED), lengths[i], result, "1 4");
        expect_reply(name, ask_fewest(SEVEN "end\n", 2), lengths[i], result, "1 4");
        expect_reply(name, ask_replay(SEVEN_UNIT_3, "step\t3\tO\nend\n"), lengths[i], result, "3");
        expect_reply(name, ask_fewest(SEVEN "end\n", 1), lengths[i], 11, "");
        expect_reply(name, ask_fewest(SEVEN "end\n", 9), lengths[i], 10, "");
    }
}

static void check_null(void)
{
    struct question no_texts = {.call = OBSERVED};
    for (int call = 0; call < CALL_COUNT; call++) {
        no_texts.call = (enum call)call;
        expect_refusal("NULL for the texts", no_texts, 102);
        check(library_reply(&no_texts, NULL, 0) == 102, "NULL for the texts and for the set");
    }
    struct question no_steps = ask_replay(SEVEN_UNIT_3, "");
    no_steps.step_text = NULL;
    expect_refusal("NULL for the step text", no_steps, 152);
    struct question questions[] = {ask_observed(SEVEN_UNIT_3), ask_unconfirmed(SEVEN_UNIT_3),
                                   ask_fewest(SEVEN_UNIT_3, 1), ask_replay(SEVEN_UNIT_3, "end\n")};
    for (int call = 0; call < CALL_COUNT; call++)
        check(library_reply(&questions[call], NULL, 0) == 6, "NULL for the set of a good question");
}

static void check_budgets(void)
{
    static const size_t above[] = {9,           10,          64,           255,          256,
                                   258,         65536,       65538,        0x80000000,   0xffffffff,
                                   0x100000000, 0x100000002, SIZE_MAX / 2, SIZE_MAX - 1, SIZE_MAX};
    for (size_t i = 0; i < sizeof above / sizeof *above; i++) {
        char name[60];
        snprintf(name, sizeof name, "budget %zu", above[i]);
        expect_refusal(name, ask_fewest(SEVEN "end\n", above[i]), 10);
        expect_refusal(name, ask_fewest(ALL_OBSERVED, above[i]), 10);
        expect_refusal(name, ask_fewest("grid\t0\n", above[i]), 103);
    }
    for (size_t budget = 2; budget <= 8; budget++)
        expect_set("any budget from 2 to 8", ask_fewest(SEVEN "end\n", budget), "1 4");
}

/* 64 buses with no lines; units from bus `first` to bus `last`. */
static const char *lone_buses(int first, int last)
{
    static char text[4000];
    size_t length = (size_t)sprintf(text, "grid\t64\n");
    for (int bus = 1; bus <= 64; bus++)
        length += (size_t)sprintf(text + length, "bus\t%d\tI\tY\n", bus);
    for (int bus = first; bus <= last; bus++)
        length += (size_t)sprintf(text + length, "pmu\t%d\n", bus);
    strcpy(text + length, "end\n");
    return text;
}

static void check_every_bit(void)
{
    char buses[300] = "", step[30];
    for (int bus = 1; bus <= 64; bus++) {
        sprintf(buses, "%d", bus);
        expect_set("a unit at one of 64 lone buses", ask_observed(lone_buses(bus, bus)), buses);
        expect_set("a unit at one of 64 lone buses", ask_unconfirmed(lone_buses(bus, bus)), buses);
        sprintf(step, "step\t%d\tO\nend\n", bus);
        expect_set("a step for one of 64 lone buses", ask_replay(lone_buses(bus, bus), step), buses);
    }
    buses[0] = '\0';
    for (int bus = 1; bus <= 64; bus++)
        sprintf(buses + strlen(buses), "%d ", bus);
    expect_set("units at all of 64 lone buses", ask_observed(lone_buses(1, 64)), buses);
    expect_set("units at all of 64 lone buses", ask_unconfirmed(lone_buses(1, 64)), buses);
    expect_set("nothing to add to 64 units", ask_fewest(lone_buses(1, 64), 0), "");
    expect_set("the last eight of 64 lone buses", ask_fewest(lone_buses(1, 56), 8), "57 58 59 60 61 62 63 64");
    expect_set("the first eight of 64 lone buses", ask_fewest(lone_buses(9, 64), 8), "1 2 3 4 5 6 7 8");
    expect_refusal("nine of 64 lone buses", ask_fewest(lone_buses(1, 55), 8), 11);
}

void check_memory(void)
{
    check_lent_lengths();
    check_null();
    check_budgets();
    check_every_bit();
}
