/* Document 01's grids to try, and grids from outside with the answers that were published with them. */
#include "boundary.h"
#include "checking.h"
#include "expecting.h"

#include <stdio.h>

#define FIVE                                                                 \
    "grid\t5\n"                                                              \
    "bus\t1\tI\tY\nbus\t2\tI\tY\nbus\t3\tZ\tY\nbus\t4\tI\tY\nbus\t5\tI\tY\n" \
    "line\t1\t2\nline\t2\t3\nline\t3\t4\nline\t4\t5\n"
#define FOUR_FROM_THE_END                                      \
    "grid\t4\n"                                                \
    "bus\t1\tI\tY\nbus\t2\tZ\tY\nbus\t3\tZ\tY\nbus\t4\tI\tY\n" \
    "line\t1\t2\nline\t2\t3\nline\t3\t4\npmu\t4\n"
/* Bus 2 is Z and has two circuits to bus 3. */
#define THREE "grid\t3\nbus\t1\tI\tY\nbus\t2\tZ\tY\nbus\t3\tI\tY\nline\t1\t2\nline\t2\t3\t2\n"
/* A chain whose lines have 2, 8 and 3 circuits. */
#define CHAIN                                                  \
    "grid\t4\n"                                                \
    "bus\t1\tI\tY\nbus\t2\tI\tY\nbus\t3\tI\tY\nbus\t4\tI\tY\n" \
    "line\t1\t2\t2\nline\t2\t3\t8\nline\t3\t4\t3\n"
#define SEVEN_LINES "line\t1\t2\nline\t2\t3\nline\t3\t4\nline\t3\t7\nline\t4\t5\nline\t5\t6\n"
#define SEVEN_BUSES_FROM_2 "bus\t2\tZ\tY\nbus\t3\tZ\tY\nbus\t4\tI\tY\nbus\t5\tZ\tY\nbus\t6\tI\tY\nbus\t7\tI\tY\n"
#define SEVEN_1_BARRED "grid\t7\nbus\t1\tI\tN\n" SEVEN_BUSES_FROM_2 SEVEN_LINES
#define ALL_BARRED "grid\t2\nbus\t1\tI\tN\nbus\t2\tI\tN\nline\t1\t2\n"

static void check_observed(void)
{
    expect_set("seven buses, no unit", ask_observed(SEVEN "end\n"), "");
    expect_set("seven buses, unit at 2", ask_observed(SEVEN "pmu\t2\nend\n"), "1 2 3");
    expect_set("seven buses, unit at 3", ask_observed(SEVEN_UNIT_3), "1 2 3 4 7");
    expect_set("seven buses, unit at 4", ask_observed(SEVEN "pmu\t4\nend\n"), "3 4 5 6");
    expect_set("seven buses, units at 1 and 4", ask_observed(SEVEN "pmu\t1\npmu\t4\nend\n"), "1 2 3 4 5 6 7");
    expect_set("path of five, units at 1 and 5", ask_observed(FIVE "pmu\t1\npmu\t5\nend\n"), "1 2 4 5");
    expect_set("a firing frees a lower bus, and that one another", ask_observed(FOUR_FROM_THE_END "end\n"), "1 2 3 4");
    expect_set("a unit at a bus with no line", ask_observed(TWO "pmu\t2\nend\n"), "2");
    expect_set("a Z bus with a single neighbour", ask_observed(TWO "line\t1\t2\npmu\t1\nend\n"), "1 2");
    expect_set("one bus, no unit", ask_observed("grid\t1\nbus\t1\tZ\tY\nend\n"), "");
}

static void check_unconfirmed(void)
{
    expect_set("seven buses, no unit", ask_unconfirmed(SEVEN "end\n"), "");
    expect_set("seven buses, unit at 3", ask_unconfirmed(SEVEN_UNIT_3), "3");
    expect_set("seven buses, units at 3 and 4", ask_unconfirmed(SEVEN "pmu\t3\npmu\t4\nend\n"), "");
    expect_set("seven buses, units at 2 and 4", ask_unconfirmed(SEVEN "pmu\t2\npmu\t4\nend\n"), "");
    expect_set("seven buses, units at 1 and 4", ask_unconfirmed(SEVEN "pmu\t1\npmu\t4\nend\n"), "1 4");
    expect_set("path of five, units at 1, 2 and 5", ask_unconfirmed(FIVE "pmu\t1\npmu\t2\npmu\t5\nend\n"), "5");
    expect_set("two units at buses with no line", ask_unconfirmed(TWO "pmu\t1\npmu\t2\nend\n"), "1 2");
}

static void check_fewest(void)
{
    expect_set("seven buses, budget 2", ask_fewest(SEVEN "end\n", 2), "1 4");
    expect_set("seven buses, budget 8: the smallest, not the first list", ask_fewest(SEVEN "end\n", 8), "1 4");
    expect_refusal("seven buses, budget 1", ask_fewest(SEVEN "end\n", 1), 11);
    expect_refusal("seven buses, budget 0", ask_fewest(SEVEN "end\n", 0), 11);
    expect_refusal("seven buses, budget 9", ask_fewest(SEVEN "end\n", 9), 10);
    expect_set("seven buses, unit at 3: only the new site", ask_fewest(SEVEN_UNIT_3, 1), "4");
    expect_set("seven buses, units at 1 and 4, budget 0", ask_fewest(SEVEN "pmu\t1\npmu\t4\nend\n", 0), "");
    expect_set("seven buses, bus 1 barred", ask_fewest(SEVEN_1_BARRED "end\n", 8), "2 4");
    expect_set("seven buses, bus 1 barred with a unit", ask_fewest(SEVEN_1_BARRED "pmu\t1\nend\n", 8), "4");
    expect_refusal("every site barred", ask_fewest(ALL_BARRED "end\n", 8), 11);
    expect_set("every site barred, a unit observes all", ask_fewest(ALL_BARRED "pmu\t1\nend\n", 8), "");
    expect_refusal("a bus that no site reaches", ask_fewest(TWO "end\n", 8), 11);
}

static void check_replay(void)
{
    expect_set(
        "the derivation",
        ask_replay(SEVEN_UNIT_3, "step\t2\tN\t3\nstep\t3\tO\nstep\t1\tZ\t2\nstep\t4\tN\t3\nstep\t7\tN\t3\nend\n"),
        "1 2 3 4 7");
    expect_refusal("1 by Z 2 first", ask_replay(SEVEN_UNIT_3, "step\t1\tZ\t2\nend\n"), 109);
    expect_refusal("Z at a bus of class I", ask_replay(SEVEN_UNIT_3, "step\t4\tN\t3\nstep\t3\tO\nstep\t5\tZ\t4\nend\n"),
                   309);
    expect_refusal("Z while two neighbours are dark",
                   ask_replay(SEVEN_UNIT_3, "step\t3\tO\nstep\t2\tN\t3\nstep\t4\tZ\t3\nend\n"), 309);
    expect_refusal("N of a bus that has no unit", ask_replay(SEVEN_UNIT_3, "step\t2\tN\t1\nend\n"), 109);
    expect_refusal("N of a unit that is not joined", ask_replay(SEVEN_UNIT_3, "step\t1\tN\t3\nend\n"), 109);
    expect_refusal("O where no unit is", ask_replay(SEVEN_UNIT_3, "step\t2\tO\nend\n"), 109);
    expect_set("N needs no step for the unit's own bus", ask_replay(SEVEN_UNIT_3, "step\t2\tN\t3\nend\n"), "2");
    expect_set("an unfinished list is an answer", ask_replay(SEVEN_UNIT_3, "step\t3\tO\nend\n"), "3");
    expect_set("the empty list", ask_replay(SEVEN_UNIT_3, "end\n"), "");
    expect_set("N at a bus with its own unit", ask_replay(SEVEN "pmu\t3\npmu\t4\nend\n", "step\t3\tN\t4\nend\n"), "3");
    expect_set("any order that holds",
               ask_replay(SEVEN_UNIT_3, "step\t7\tN\t3\nstep\t4\tN\t3\nstep\t2\tN\t3\nstep\t3\tO\nend\n"), "2 3 4 7");
}

/* One neighbour is seen, however many circuits its line has. */
static void check_circuits(void)
{
    expect_set("two circuits to the one dark neighbour", ask_observed(THREE "pmu\t1\nend\n"), "1 2 3");
    expect_set("a chain of several circuits, unit at 2", ask_observed(CHAIN "pmu\t2\nend\n"), "1 2 3");
    expect_set("several circuits to the unit's neighbours", ask_unconfirmed(CHAIN "pmu\t2\nend\n"), "2");
    expect_set("units at both ends of the chain", ask_unconfirmed(CHAIN "pmu\t1\npmu\t4\nend\n"), "1 4");
    expect_set("units at 1 and 3, which share 2", ask_unconfirmed(CHAIN "pmu\t1\npmu\t3\nend\n"), "");
    expect_set("units at both ends of three circuits", ask_unconfirmed(CHAIN "pmu\t3\npmu\t4\nend\n"), "");
    expect_set("the fewest of the chain", ask_fewest(CHAIN "end\n", 2), "1 3");
    expect_set("the fewest with two circuits", ask_fewest(THREE "end\n", 1), "1");
    expect_set("Z by two circuits",
               ask_replay(THREE "pmu\t1\nend\n", "step\t1\tO\nstep\t2\tN\t1\nstep\t3\tZ\t2\nend\n"), "1 2 3");
    expect_refusal("Z by two circuits at a dark bus", ask_replay(THREE "pmu\t1\nend\n", "step\t3\tZ\t2\nend\n"), 109);
}

void check_grids(void)
{
    check_observed();
    check_unconfirmed();
    check_fewest();
    check_replay();
    check_circuits();
}

static void expect_of_file(const char *folder, const char *file, size_t budget, uint32_t result, const char *buses)
{
    static char text[10000];
    char path[500], name[100];
    snprintf(path, sizeof path, "%s/%s.case", folder, file);
    snprintf(name, sizeof name, "%s, budget %zu", file, budget);
    FILE *stream = fopen(path, "rb");
    if (stream == NULL) {
        check(false, path);
        return;
    }
    size_t length = fread(text, 1, sizeof text - 1, stream);
    fclose(stream);
    text[length] = '\0';
    expect_reply(name, ask_fewest(text, budget), 8, result, buses);
}

void check_outside_grids(const char *cases)
{
    expect_of_file(cases, "ieee14", 8, 0, "2 6 9");
    expect_of_file(cases, "ieee14", 3, 0, "2 6 9");
    expect_of_file(cases, "ieee14", 2, 11, "");
    expect_of_file(cases, "ieee30", 8, 0, "1 2 10 12 15 18 27");
    expect_of_file(cases, "ieee30", 6, 11, "");
    expect_of_file(cases, "ieee57", 8, 11, "");
    expect_of_file(cases, "source000-fig4", 8, 0, "1 5 9 14 18");
    expect_of_file(cases, "source000-fig4", 4, 11, "");
    expect_of_file(cases, "source000-gadget", 8, 0, "3");
}
