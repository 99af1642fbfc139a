/* Document 02's observation in rounds: each looks at all buses against the set as it stood when the round began. */
#include "document01.h"

#include <string.h>

static bool is_near_unit(const struct grid_case *grid, unsigned bus)
{
    for (unsigned other = 1; other <= grid->buses; other++)
        if (grid->joined[bus][other] && grid->unit[other])
            return true;
    return false;
}

/* How many neighbours of a bus are not observed. */
static size_t count_dark_neighbours(const struct grid_case *grid, const struct bus_set *observed, unsigned bus)
{
    size_t count = 0;
    for (unsigned other = 1; other <= grid->buses; other++)
        count += grid->joined[bus][other] && !observed->has[other];
    return count;
}

/* For a bus that is not observed: whether it is the only dark neighbour of an observed zero-injection bus. */
static bool is_freed(const struct grid_case *grid, const struct bus_set *observed, unsigned bus)
{
    for (unsigned w = 1; w <= grid->buses; w++)
        if (grid->joined[w][bus] && grid->zero_injection[w] && observed->has[w] &&
            count_dark_neighbours(grid, observed, w) == 1)
            return true;
    return false;
}

/* The buses that the rules give where `begun` is observed, and whether there are any. */
static bool play_round(const struct grid_case *grid, const struct bus_set *begun, struct bus_set *added)
{
    bool any = false;
    memset(added, 0, sizeof *added);
    for (unsigned bus = 1; bus <= grid->buses; bus++) {
        if (begun->has[bus])
            continue;
        added->has[bus] = grid->unit[bus] || is_near_unit(grid, bus) || is_freed(grid, begun, bus);
        any = any || added->has[bus];
    }
    return any;
}

size_t observe_in_rounds(const struct grid_case *grid, struct bus_set added[MOST_BUSES])
{
    struct bus_set observed = {{false}}, next;
    size_t rounds = 0;
    while (play_round(grid, &observed, &next)) {
        for (unsigned bus = 1; bus <= grid->buses; bus++)
            observed.has[bus] = observed.has[bus] || next.has[bus];
        added[rounds++] = next;
    }
    return rounds;
}
