#include "programs_by_hand.h"

#include "boundary.h"
#include "checking.h"
#include "running.h"

#include <stdio.h>
#include <string.h>

#define SEVEN_REPORT \
    "observed\t5\t7\nstep\t2\tN\t3\nstep\t3\tO\nstep\t1\tZ\t2\nstep\t4\tN\t3\nstep\t7\tN\t3\nxv\tno\t1\nend\n"
/* Bus 2 is Z and has two circuits to bus 3. */
#define THREE "grid\t3\nbus\t1\tI\tY\nbus\t2\tZ\tY\nbus\t3\tI\tY\nline\t1\t2\nline\t2\t3\t2\n"
#define SEVEN_ROUNDS "round\t1\t2\t3\t4\t7\nround\t2\t1\nend\n"
#define FOUR "grid\t4\nbus\t1\tI\tY\nbus\t2\tZ\tY\nbus\t3\tZ\tY\nbus\t4\tI\tY\nline\t1\t2\nline\t2\t3\nline\t3\t4\n"
/* No line: each bus needs a unit of its own. */
#define FOUR_APART "grid\t4\nbus\t1\tI\tY\nbus\t2\tI\tY\nbus\t3\tI\tY\nbus\t4\tI\tY\n"
#define SEVEN_COVERED SEVEN "pmu\t1\npmu\t4\nend\n"
#define SEVEN_EMPTY SEVEN "end\n"

static void expect_bytes(const char *name, enum program program, enum feeding feeding, const uint8_t *input,
                         size_t length, const char *output)
{
    struct printed printed;
    char whole_name[200];
    run_program(program, feeding, input, length, &printed);
    bool same = printed.length == strlen(output) && memcmp(printed.bytes, output, printed.length) == 0;
    snprintf(whole_name, sizeof whole_name, "%s: %s", program_names[program], name);
    check(same && printed.ended_well, whole_name);
    if (!same)
        print_bytes("printed", (const uint8_t *)printed.bytes, printed.length);
}

static void expect_output(const char *name, enum program program, const char *input, const char *output)
{
    expect_bytes(name, program, FEED_PIPE, (const uint8_t *)input, strlen(input), output);
}

void check_day_by_hand(void)
{
    expect_output("document 01's day report", DAY, SEVEN_UNIT_3, SEVEN_REPORT);
    expect_output("no unit", DAY, SEVEN_EMPTY, "observed\t0\t7\nxv\tyes\nend\n");
    expect_output("two units that confirm each other", DAY, TWO "line\t1\t2\npmu\t1\npmu\t2\nend\n",
                  "observed\t2\t2\nstep\t1\tO\nstep\t2\tO\nxv\tyes\nend\n");
    expect_output("a later firing frees a lower bus", DAY, FOUR "pmu\t4\nend\n",
                  "observed\t4\t4\nstep\t3\tN\t4\nstep\t4\tO\nstep\t2\tZ\t3\nstep\t1\tZ\t2\nxv\tno\t1\nend\n");
    expect_output("two circuits", DAY, THREE "pmu\t1\nend\n",
                  "observed\t3\t3\nstep\t1\tO\nstep\t2\tN\t1\nstep\t3\tZ\t2\nxv\tno\t1\nend\n");
    expect_output("nine circuits", DAY, TWO "line\t1\t2\t9\nend\n", "refused\t3\t4\n");
    expect_output("the empty text", DAY, "", "refused\t2\t1\n");
    expect_output("65 buses", DAY, "grid\t65\n", "refused\t3\t1\n");
    expect_output("a line that does not rise", DAY, TWO "line\t1\t2\nline\t1\t2\nend\n", "refused\t4\t5\n");
    expect_output("a plan line", DAY, "plan\n" SEVEN_UNIT_3, "refused\t2\t1\n");
}

static void check_plan_lines(void)
{
    static const char *const bad_lines[] = {"plan\t\n",      "plan 8\n",     "plan\r\n", "plan\t8\r\n", "plan\t00\n",
                                            "plan\t08\n",    "plan\t+8\n",   "Plan\n",   "plans\n",     "plan\t8\t\n",
                                            "plan\t10000\n", "plan\t8\t8\n", "\tplan\n", "\n",          "grid\t7\n"};
    char input[1000], name[60];
    for (size_t i = 0; i < sizeof bad_lines / sizeof *bad_lines; i++) {
        snprintf(input, sizeof input, "%s%s", bad_lines[i], SEVEN_EMPTY);
        snprintf(name, sizeof name, "bad first line %zu", i + 1);
        expect_output(name, PLAN, input, "refused\t2\t1\n");
    }
    expect_output("the empty input", PLAN, "", "refused\t2\t1\n");
    expect_output("plan not ended", PLAN, "plan", "refused\t2\t1\n");
    expect_output("plan 9 not ended", PLAN, "plan\t9", "refused\t2\t1\n");
    expect_output("no plan line", PLAN, SEVEN_EMPTY, "refused\t2\t1\n");
}

/* `plan` alone means 3, and the limit is 8. */
static void check_default(void)
{
    static const char all_four[] = "fewest\t4\npmu\t1\npmu\t2\npmu\t3\npmu\t4\nend\n";
    static const char last_three[] = "fewest\t3\npmu\t2\npmu\t3\npmu\t4\nend\n";
    expect_output("plan alone, three needed", PLAN, "plan\n" FOUR_APART "pmu\t1\nend\n", last_three);
    expect_output("plan alone, four needed", PLAN, "plan\n" FOUR_APART "end\n", "refused\t11\t0\n");
    expect_output("budget 3, four needed", PLAN, "plan\t3\n" FOUR_APART "end\n", "refused\t11\t0\n");
    expect_output("budget 4, four needed", PLAN, "plan\t4\n" FOUR_APART "end\n", all_four);
    expect_output("budget 8, four needed", PLAN, "plan\t8\n" FOUR_APART "end\n", all_four);
}

void check_plan_by_hand(void)
{
    check_plan_lines();
    expect_output("plan alone", PLAN, "plan\n" SEVEN_EMPTY, "fewest\t2\npmu\t1\npmu\t4\nend\n");
    check_default();
    expect_output("budget 2", PLAN, "plan\t2\n" SEVEN_EMPTY, "fewest\t2\npmu\t1\npmu\t4\nend\n");
    expect_output("budget 8", PLAN, "plan\t8\n" SEVEN_EMPTY, "fewest\t2\npmu\t1\npmu\t4\nend\n");
    expect_output("only the added sites", PLAN, "plan\n" SEVEN_UNIT_3, "fewest\t1\npmu\t4\nend\n");
    expect_output("two circuits", PLAN, "plan\t1\n" THREE "end\n", "fewest\t1\npmu\t1\nend\n");
    expect_output("one circuit said", PLAN, "plan\t1\n" TWO "line\t1\t2\t1\nend\n", "refused\t3\t5\n");
    expect_output("nothing to add", PLAN, "plan\t0\n" SEVEN_COVERED, "fewest\t0\nend\n");
    expect_output("budget 1 is too small", PLAN, "plan\t1\n" SEVEN_EMPTY, "refused\t11\t0\n");
    expect_output("budget 0 is too small", PLAN, "plan\t0\n" SEVEN_EMPTY, "refused\t11\t0\n");
    expect_output("budget 9", PLAN, "plan\t9\n" SEVEN_EMPTY, "refused\t10\t1\n");
    expect_output("budget 9 and nothing to add", PLAN, "plan\t9\n" SEVEN_COVERED, "refused\t10\t1\n");
    expect_output("budget 9999", PLAN, "plan\t9999\n" SEVEN_EMPTY, "refused\t10\t1\n");
    expect_output("budget 9 and a bad case text", PLAN, "plan\t9\ngrid\t0\n", "refused\t3\t2\n");
    expect_output("budget 9 and no case text", PLAN, "plan\t9\n", "refused\t2\t2\n");
    expect_output("only the plan line", PLAN, "plan\n", "refused\t2\t2\n");
    expect_output("a second plan line", PLAN, "plan\nplan\n" SEVEN_EMPTY, "refused\t2\t2\n");
    expect_output("lines count from 2", PLAN, "plan\n" TWO "line\t2\t1\nend\n", "refused\t4\t5\n");
    expect_output("bytes after end", PLAN, "plan\n" TWO "end\nx", "refused\t2\t6\n");
}

/* A row of 64 Z buses with a unit at the first: 63 rounds. */
static void check_long_row(void)
{
    char input[2000] = "grid\t64\n", output[1000] = "round\t1\t1\t2\n";
    for (int bus = 1; bus <= 64; bus++)
        sprintf(input + strlen(input), "bus\t%d\tZ\tY\n", bus);
    for (int bus = 1; bus < 64; bus++)
        sprintf(input + strlen(input), "line\t%d\t%d\n", bus, bus + 1);
    for (int round = 2; round <= 63; round++)
        sprintf(output + strlen(output), "round\t%d\t%d\n", round, round + 1);
    strcat(input, "pmu\t1\nend\n");
    strcat(output, "end\n");
    expect_output("a row of 64 buses", ROUNDS, input, output);
}

void check_rounds_by_hand(void)
{
    expect_output("each round is of the set as it stood", ROUNDS, FOUR "pmu\t1\nend\n",
                  "round\t1\t1\t2\nround\t2\t3\nround\t3\t4\nend\n");
    expect_output("from the other end", ROUNDS, FOUR "pmu\t4\nend\n",
                  "round\t1\t3\t4\nround\t2\t2\nround\t3\t1\nend\n");
    expect_output("all in one round", ROUNDS, FOUR "pmu\t1\npmu\t4\nend\n", "round\t1\t1\t2\t3\t4\nend\n");
    expect_output("seven buses", ROUNDS, SEVEN_UNIT_3, SEVEN_ROUNDS);
    expect_output("two buses in the second round", ROUNDS, SEVEN_COVERED,
                  "round\t1\t1\t2\t3\t4\t5\nround\t2\t6\t7\nend\n");
    expect_output("no unit", ROUNDS, SEVEN_EMPTY, "end\n");
    expect_output("two circuits", ROUNDS, THREE "pmu\t1\nend\n", "round\t1\t1\t2\nround\t2\t3\nend\n");
    check_long_row();
    expect_output("nine circuits", ROUNDS, TWO "line\t1\t2\t9\nend\n", "refused\t3\t4\n");
    expect_output("the empty text", ROUNDS, "", "refused\t2\t1\n");
    expect_output("65 buses", ROUNDS, "grid\t65\n", "refused\t3\t1\n");
    expect_output("a line that does not rise", ROUNDS, TWO "line\t1\t2\nline\t1\t2\nend\n", "refused\t4\t5\n");
    expect_output("a plan line", ROUNDS, "plan\n" SEVEN_UNIT_3, "refused\t2\t1\n");
}

static void check_byte_limit(void)
{
    static uint8_t input[1 << 20];
    memset(input, 'x', sizeof input);
    memcpy(input, SEVEN_UNIT_3, strlen(SEVEN_UNIT_3));
    expect_bytes("padded to 8,192 bytes", DAY, FEED_PIPE, input, 8192, "refused\t2\t17\n");
    expect_bytes("padded to 8,193 bytes", DAY, FEED_PIPE, input, 8193, "refused\t1\t0\n");
    expect_bytes("padded to 8,193 bytes, from a file", DAY, FEED_FILE, input, 8193, "refused\t1\t0\n");
    expect_bytes("padded to 1 MB", DAY, FEED_PIPE, input, sizeof input, "refused\t1\t0\n");
    expect_bytes("1 MB from a file", DAY, FEED_FILE, input, sizeof input, "refused\t1\t0\n");
    expect_bytes("padded to 8,192 bytes", ROUNDS, FEED_PIPE, input, 8192, "refused\t2\t17\n");
    expect_bytes("padded to 8,193 bytes", ROUNDS, FEED_PIPE, input, 8193, "refused\t1\t0\n");
    expect_bytes("padded to 1 MB", ROUNDS, FEED_PIPE, input, sizeof input, "refused\t1\t0\n");
    expect_bytes("a bad plan line and 8,193 bytes", PLAN, FEED_PIPE, input, 8193, "refused\t1\t0\n");
    memcpy(input, "plan\n" SEVEN_UNIT_3, strlen("plan\n" SEVEN_UNIT_3));
    expect_bytes("padded to 8,192 bytes with the plan line", PLAN, FEED_PIPE, input, 8192, "refused\t2\t18\n");
    expect_bytes("padded to 8,193 bytes with the plan line", PLAN, FEED_PIPE, input, 8193, "refused\t1\t0\n");
    expect_bytes("padded to 1 MB", PLAN, FEED_PIPE, input, sizeof input, "refused\t1\t0\n");
}

void check_standard_input(void)
{
    static const char day[] = SEVEN_UNIT_3, plan[] = "plan\t2\n" SEVEN_EMPTY;
    const uint8_t *day_bytes = (const uint8_t *)day, *plan_bytes = (const uint8_t *)plan;
    check_byte_limit();
    expect_bytes("one byte at a time", DAY, FEED_BYTES, day_bytes, strlen(day), SEVEN_REPORT);
    expect_bytes("one byte at a time", PLAN, FEED_BYTES, plan_bytes, strlen(plan), "fewest\t2\npmu\t1\npmu\t4\nend\n");
    expect_bytes("one byte at a time", ROUNDS, FEED_BYTES, day_bytes, strlen(day), SEVEN_ROUNDS);
    expect_bytes("from a file", DAY, FEED_FILE, day_bytes, strlen(day), SEVEN_REPORT);
    expect_bytes("from a file", PLAN, FEED_FILE, plan_bytes, strlen(plan), "fewest\t2\npmu\t1\npmu\t4\nend\n");
    expect_bytes("from a file", ROUNDS, FEED_FILE, day_bytes, strlen(day), SEVEN_ROUNDS);
    expect_bytes("an empty file", DAY, FEED_FILE, day_bytes, 0, "refused\t2\t1\n");
    expect_bytes("a NUL after the text", DAY, FEED_PIPE, day_bytes, sizeof day, "refused\t2\t17\n");
    if (is_emulated()) {
        printf("closed standard input is not tried: the emulator may open its own files under that number\n");
        return;
    }
    expect_bytes("standard input closed", DAY, FEED_CLOSED, NULL, 0, "refused\t2\t1\n");
    expect_bytes("standard input closed", PLAN, FEED_CLOSED, NULL, 0, "refused\t2\t1\n");
    expect_bytes("standard input closed", ROUNDS, FEED_CLOSED, NULL, 0, "refused\t2\t1\n");
}
