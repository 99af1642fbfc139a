/* Document 01's observation: the two rules, the derivation, and replay. */
#include "document01.h"

#include <string.h>

void add_unit(const struct grid_case *grid, unsigned bus, struct bus_set *observed)
{
    observed->has[bus] = true;
    for (size_t i = 0; i < grid->neighbour_count[bus]; i++)
        observed->has[grid->neighbours[bus][i]] = true;
}

/* The one neighbour of a bus that is not observed, or 0 if there are none or several. */
static unsigned only_dark_neighbour(const struct grid_case *grid, const struct bus_set *observed, unsigned bus)
{
    unsigned dark = 0;
    for (size_t i = 0; i < grid->neighbour_count[bus]; i++) {
        unsigned neighbour = grid->neighbours[bus][i];
        if (observed->has[neighbour])
            continue;
        if (dark != 0)
            return 0;
        dark = neighbour;
    }
    return dark;
}

void spread_by_zero_injection(const struct grid_case *grid, struct bus_set *observed)
{
    bool changed = true;
    while (changed) {
        changed = false;
        for (unsigned w = 1; w <= grid->buses; w++) {
            if (!grid->zero_injection[w] || !observed->has[w])
                continue;
            unsigned freed = only_dark_neighbour(grid, observed, w);
            if (freed == 0)
                continue;
            observed->has[freed] = true;
            changed = true;
        }
    }
}

void observe(const struct grid_case *grid, struct bus_set *observed)
{
    memset(observed, 0, sizeof *observed);
    for (unsigned bus = 1; bus <= grid->buses; bus++)
        if (grid->unit[bus])
            add_unit(grid, bus, observed);
    spread_by_zero_injection(grid, observed);
}

/* For numbers from 1 to n. */
bool reason_holds(const struct grid_case *grid, const struct bus_set *observed, struct step step)
{
    if (step.reason == 'O')
        return grid->unit[step.bus];
    if (!grid->joined[step.by][step.bus])
        return false;
    if (step.reason == 'N')
        return grid->unit[step.by];
    if (!grid->zero_injection[step.by] || !observed->has[step.by])
        return false;
    for (unsigned other = 1; other <= grid->buses; other++)
        if (grid->joined[step.by][other] && other != step.bus && !observed->has[other])
            return false;
    return true;
}

/* The reason that the derivation takes for a bus: O, else N with the lowest unit, else Z with the lowest bus. */
static bool first_reason(const struct grid_case *grid, const struct bus_set *observed, struct step *step)
{
    step->reason = 'O';
    step->by = 0;
    if (reason_holds(grid, observed, *step))
        return true;
    step->reason = 'N';
    for (step->by = 1; step->by <= grid->buses; step->by++)
        if (reason_holds(grid, observed, *step))
            return true;
    step->reason = 'Z';
    for (step->by = 1; step->by <= grid->buses; step->by++)
        if (reason_holds(grid, observed, *step))
            return true;
    return false;
}

static bool next_step(const struct grid_case *grid, const struct bus_set *observed, struct step *step)
{
    for (step->bus = 1; step->bus <= grid->buses; step->bus++)
        if (!observed->has[step->bus] && first_reason(grid, observed, step))
            return true;
    return false;
}

size_t derive(const struct grid_case *grid, struct step steps[MOST_BUSES])
{
    struct bus_set observed = {{false}};
    struct step step;
    size_t step_count = 0;
    while (next_step(grid, &observed, &step)) {
        observed.has[step.bus] = true;
        steps[step_count++] = step;
    }
    return step_count;
}

static unsigned step_refusal(const struct grid_case *grid, const struct bus_set *observed, struct step step)
{
    if (step.bus < 1 || step.bus > grid->buses)
        return 7;
    if (step.reason != 'O' && (step.by < 1 || step.by > grid->buses))
        return 7;
    if (observed->has[step.bus])
        return 8;
    return reason_holds(grid, observed, step) ? 0 : 9;
}

struct refusal replay(const struct grid_case *grid, const struct step *steps, size_t step_count,
                      struct bus_set *observed)
{
    memset(observed, 0, sizeof *observed);
    for (size_t i = 0; i < step_count; i++) {
        unsigned number = step_refusal(grid, observed, steps[i]);
        if (number != 0)
            return refuse(number, i + 1);
        observed->has[steps[i].bus] = true;
    }
    return accept();
}
