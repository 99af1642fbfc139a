/* The three programs as functions from an input to what is printed. */
#include "document01.h"

#include <stdarg.h>
#include <stdio.h>
#include <string.h>

struct print {
    char *bytes;
    size_t length;
};

static void print_line(struct print *print, const char *format, ...)
{
    va_list values;
    va_start(values, format);
    print->length += (size_t)vsnprintf(print->bytes + print->length, MOST_PRINTED - print->length, format, values);
    va_end(values);
}

static void print_refusal(struct print *print, struct refusal refusal)
{
    print_line(print, "refused\t%u\t%zu\n", refusal.number, refusal.place);
}

static size_t count_buses(const struct bus_set *set)
{
    size_t count = 0;
    for (unsigned bus = 1; bus <= MOST_BUSES; bus++)
        count += set->has[bus];
    return count;
}

static void print_steps(struct print *print, const struct step *steps, size_t step_count)
{
    for (size_t i = 0; i < step_count; i++) {
        if (steps[i].reason == 'O')
            print_line(print, "step\t%u\tO\n", steps[i].bus);
        else
            print_line(print, "step\t%u\t%c\t%u\n", steps[i].bus, steps[i].reason, steps[i].by);
    }
}

static void print_verdict(struct print *print, size_t unconfirmed_count)
{
    if (unconfirmed_count == 0)
        print_line(print, "xv\tyes\n");
    else
        print_line(print, "xv\tno\t%zu\n", unconfirmed_count);
}

size_t print_day_report(const uint8_t *input, size_t length, char printed[MOST_PRINTED], unsigned *number)
{
    struct print print = {printed, 0};
    struct grid_case grid;
    struct bus_set observed, unconfirmed;
    struct step steps[MOST_BUSES];
    struct refusal refusal = read_case_text(input, length, &grid);
    *number = refusal.number;
    if (refusal.number != 0) {
        print_refusal(&print, refusal);
        return print.length;
    }
    observe(&grid, &observed);
    find_unconfirmed(&grid, &unconfirmed);
    print_line(&print, "observed\t%zu\t%zu\n", count_buses(&observed), grid.buses);
    print_steps(&print, steps, derive(&grid, steps));
    print_verdict(&print, count_buses(&unconfirmed));
    print_line(&print, "end\n");
    return print.length;
}

static void print_round(struct print *print, size_t place, const struct bus_set *added)
{
    print_line(print, "round\t%zu", place);
    for (unsigned bus = 1; bus <= MOST_BUSES; bus++)
        if (added->has[bus])
            print_line(print, "\t%u", bus);
    print_line(print, "\n");
}

size_t print_rounds(const uint8_t *input, size_t length, char printed[MOST_PRINTED], unsigned *number)
{
    struct print print = {printed, 0};
    struct grid_case grid;
    struct bus_set added[MOST_BUSES];
    struct refusal refusal = read_case_text(input, length, &grid);
    *number = refusal.number;
    if (refusal.number != 0) {
        print_refusal(&print, refusal);
        return print.length;
    }
    size_t rounds = observe_in_rounds(&grid, added);
    for (size_t i = 0; i < rounds; i++)
        print_round(&print, i + 1, &added[i]);
    print_line(&print, "end\n");
    return print.length;
}

/* The first line, without its line feed: `plan`, or `plan` and a budget. */
static bool read_plan_line(const uint8_t *line, size_t length, unsigned *budget)
{
    *budget = DEFAULT_BUDGET;
    if (length < 4 || memcmp(line, "plan", 4) != 0)
        return false;
    if (length == 4)
        return true;
    return line[4] == '\t' && read_number(line + 5, length - 5, budget);
}

static struct refusal answer_plan(const uint8_t *input, size_t length, struct bus_set *added)
{
    struct grid_case grid;
    unsigned budget;
    size_t line_feed = 0;
    if (length > CASE_TEXT_LIMIT)
        return refuse(1, 0);
    while (line_feed < length && input[line_feed] != '\n')
        line_feed++;
    if (line_feed == length || !read_plan_line(input, line_feed, &budget))
        return refuse(2, 1);
    struct refusal refusal = read_case_text(input + line_feed + 1, length - line_feed - 1, &grid);
    if (refusal.number != 0)
        return refuse(refusal.number, refusal.place + 1);
    refusal = place_fewest(&grid, budget, added);
    return refusal.number == 10 ? refuse(10, 1) : refusal;
}

size_t print_plan(const uint8_t *input, size_t length, char printed[MOST_PRINTED], unsigned *number)
{
    struct print print = {printed, 0};
    struct bus_set added;
    struct refusal refusal = answer_plan(input, length, &added);
    *number = refusal.number;
    if (refusal.number != 0) {
        print_refusal(&print, refusal);
        return print.length;
    }
    print_line(&print, "fewest\t%zu\n", count_buses(&added));
    for (unsigned bus = 1; bus <= MOST_BUSES; bus++)
        if (added.has[bus])
            print_line(&print, "pmu\t%u\n", bus);
    print_line(&print, "end\n");
    return print.length;
}
