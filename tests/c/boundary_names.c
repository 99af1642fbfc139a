/* The names of include/wozgrzyt.h: each refusal is provoked and compared by its name, each limit is met and passed, and
 * the functions of the header are tried on every result and every bus. */
#include "asking.h"
#include "boundary.h"
#include "checking.h"
#include "wozgrzyt.h"

#include <stdio.h>
#include <string.h>

/* Bytes that are no record. */
static const uint8_t nonsense[WZ_STEP_BYTES + 1];

/* The result of a question with `set_len` bytes lent. */
static uint32_t result_of(struct question question, size_t set_len)
{
    uint8_t set[WZ_SET_BYTES];
    return library_reply(&question, set, set_len);
}

static void expect_named(const char *name, uint32_t result, enum wz_refusal number, unsigned place)
{
    check(wz_number(result) == (unsigned)number && wz_place(result) == place, name);
}

static void expect_case(const char *name, const char *text, enum wz_refusal number, unsigned place)
{
    expect_named(name, result_of(ask_observed(text), WZ_SET_BYTES), number, place);
}

static void expect_steps(const char *name, const char *steps, enum wz_refusal number, unsigned place)
{
    expect_named(name, result_of(ask_replay(SEVEN_UNIT_3, steps), WZ_SET_BYTES), number, place);
}

static struct question with_case_bytes(size_t length)
{
    struct question question = ask_observed("");
    question.case_text = nonsense;
    question.case_len = length;
    return question;
}

static struct question with_step_bytes(size_t length)
{
    struct question question = ask_replay(SEVEN_UNIT_3, "");
    question.step_text = nonsense;
    question.step_len = length;
    return question;
}

/* `count` steps that are good in their form. */
static const char *steps_of(int count)
{
    static char text[20000];
    size_t length = 0;
    for (int i = 0; i < count; i++)
        length += (size_t)sprintf(text + length, "step\t3\tO\n");
    strcpy(text + length, "end\n");
    return text;
}

void check_names(void)
{
    expect_named("WZ_CASE_TOO_LONG", result_of(with_case_bytes(8193), WZ_SET_BYTES), WZ_CASE_TOO_LONG, 0);
    expect_case("WZ_CASE_FORM", "grid\t7\nbus\t1\tQ\tY\n", WZ_CASE_FORM, 2);
    expect_case("WZ_CASE_RANGE", TWO "pmu\t3\nend\n", WZ_CASE_RANGE, 4);
    expect_case("WZ_CASE_ORDER", TWO "line\t2\t1\nend\n", WZ_CASE_ORDER, 4);
    expect_named("WZ_SET_TOO_SHORT", result_of(ask_observed(SEVEN_UNIT_3), 7), WZ_SET_TOO_SHORT, 0);
    expect_steps("WZ_STEP_NO_BUS", "step\t3\tO\nstep\t8\tO\nend\n", WZ_STEP_NO_BUS, 2);
    expect_steps("WZ_STEP_OBSERVED", "step\t3\tO\nstep\t3\tO\nend\n", WZ_STEP_OBSERVED, 2);
    expect_steps("WZ_STEP_REASON", "step\t1\tZ\t2\nend\n", WZ_STEP_REASON, 1);
    expect_named("WZ_BUDGET_TOO_LARGE", result_of(ask_fewest(SEVEN "end\n", 9), 8), WZ_BUDGET_TOO_LARGE, 0);
    expect_named("WZ_NO_ADDITION", result_of(ask_fewest(SEVEN "end\n", 1), 8), WZ_NO_ADDITION, 0);
    expect_named("WZ_STEPS_TOO_LONG", result_of(with_step_bytes(16385), WZ_SET_BYTES), WZ_STEPS_TOO_LONG, 0);
    expect_steps("WZ_STEPS_FORM", "step\t3\tO\nstep\t2\tQ\nend\n", WZ_STEPS_FORM, 2);
    expect_steps("WZ_STEPS_RANGE", "step\t65\tO\nend\n", WZ_STEPS_RANGE, 1);
    expect_steps("WZ_STEPS_TOO_MANY", steps_of(1025), WZ_STEPS_TOO_MANY, 1025);
    check(wz_number(0) == 0 && wz_place(0) == 0, "a result that is no refusal has number 0 and place 0");
    check(wz_number(UINT32_MAX) == 95 && wz_place(UINT32_MAX) == 42949672, "the largest result");
}

/* A grid of `buses` without lines, in `text`. */
static void write_buses(char *text, int buses)
{
    size_t length = (size_t)sprintf(text, "grid\t%d\n", buses);
    for (int bus = 1; bus <= buses; bus++)
        length += (size_t)sprintf(text + length, "bus\t%d\tI\tY\n", bus);
}

/* The result for a grid of `buses` with the first `lines` pairs of them joined. */
static uint32_t result_for_size(int buses, int lines)
{
    static char text[10000];
    write_buses(text, buses);
    size_t length = strlen(text);
    for (int a = 1; a <= buses; a++)
        for (int b = a + 1; b <= buses && lines > 0; b++, lines--)
            length += (size_t)sprintf(text + length, "line\t%d\t%d\n", a, b);
    strcpy(text + length, "end\n");
    return result_of(ask_observed(text), WZ_SET_BYTES);
}

/* The result for two buses with `circuits` circuits between them. */
static uint32_t result_for_circuits(int circuits)
{
    char text[100];
    sprintf(text, TWO "line\t1\t2\t%d\nend\n", circuits);
    return result_of(ask_observed(text), WZ_SET_BYTES);
}

static void check_sets(void)
{
    uint8_t set[WZ_SET_BYTES];
    bool right = true;
    for (unsigned in = 1; in <= WZ_MOST_BUSES; in++) {
        memset(set, 0, sizeof set);
        set[(in - 1) / 8] = (uint8_t)(1u << (in - 1) % 8);
        for (unsigned bus = 0; bus <= WZ_MOST_BUSES + 1; bus++)
            right = right && wz_has(set, bus) == (bus == in);
    }
    memset(set, 0xff, sizeof set);
    check(right, "wz_has on every set of one bus");
    check(!wz_has(set, 0) && !wz_has(set, 65) && !wz_has(set, UINT32_MAX), "wz_has of a number that is no bus");
    check(wz_has(set, 1) == 1 && wz_has(set, 8) == 1 && wz_has(set, 64) == 1, "wz_has is 1 and no other number");
}

void check_limits(void)
{
    check(result_for_size(WZ_MOST_BUSES, 0) == 0, "WZ_MOST_BUSES are read");
    check(wz_number(result_for_size(WZ_MOST_BUSES + 1, 0)) == WZ_CASE_RANGE, "a bus more than WZ_MOST_BUSES");
    check(result_for_size(WZ_MOST_BUSES, WZ_MOST_LINES) == 0, "WZ_MOST_LINES are read");
    check(wz_number(result_for_size(WZ_MOST_BUSES, WZ_MOST_LINES + 1)) == WZ_CASE_RANGE, "a line more");
    check(result_for_circuits(WZ_MOST_CIRCUITS) == 0, "WZ_MOST_CIRCUITS are read");
    check(wz_number(result_for_circuits(WZ_MOST_CIRCUITS + 1)) == WZ_CASE_RANGE, "a circuit more");
    check(result_of(ask_fewest(SEVEN "end\n", WZ_MOST_BUDGET), 8) == 0, "WZ_MOST_BUDGET is asked");
    check(result_of(ask_fewest(SEVEN "end\n", WZ_MOST_BUDGET + 1), 8) == WZ_BUDGET_TOO_LARGE, "a unit more");
    check(wz_number(result_of(ask_replay(SEVEN_UNIT_3, steps_of(WZ_MOST_STEPS)), 8)) == WZ_STEP_OBSERVED,
          "WZ_MOST_STEPS are read");
    check(wz_number(result_of(ask_replay(SEVEN_UNIT_3, steps_of(WZ_MOST_STEPS + 1)), 8)) == WZ_STEPS_TOO_MANY,
          "a step more");
    check(wz_number(result_of(with_case_bytes(WZ_CASE_BYTES), 8)) == WZ_CASE_FORM, "WZ_CASE_BYTES are read");
    check(wz_number(result_of(with_case_bytes(WZ_CASE_BYTES + 1), 8)) == WZ_CASE_TOO_LONG, "a byte more, case");
    check(wz_number(result_of(with_step_bytes(WZ_STEP_BYTES), 8)) == WZ_STEPS_FORM, "WZ_STEP_BYTES are read");
    check(wz_number(result_of(with_step_bytes(WZ_STEP_BYTES + 1), 8)) == WZ_STEPS_TOO_LONG, "a byte more, steps");
    check(result_of(ask_observed(SEVEN_UNIT_3), WZ_SET_BYTES) == 0, "WZ_SET_BYTES are enough");
    check(result_of(ask_observed(SEVEN_UNIT_3), WZ_SET_BYTES - 1) == WZ_SET_TOO_SHORT, "a byte fewer");
    check_sets();
}
