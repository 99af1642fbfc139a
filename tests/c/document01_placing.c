/* Document 01's cross-validation and the fewest new units. */
#include "document01.h"

#include <string.h>

static bool confirm_each_other(const struct grid_case *grid, unsigned a, unsigned b)
{
    if (grid->joined[a][b])
        return true;
    for (unsigned shared = 1; shared <= grid->buses; shared++)
        if (grid->joined[a][shared] && grid->joined[b][shared])
            return true;
    return false;
}

static bool is_confirmed(const struct grid_case *grid, unsigned unit)
{
    for (unsigned other = 1; other <= grid->buses; other++)
        if (other != unit && grid->unit[other] && confirm_each_other(grid, unit, other))
            return true;
    return false;
}

void find_unconfirmed(const struct grid_case *grid, struct bus_set *unconfirmed)
{
    memset(unconfirmed, 0, sizeof *unconfirmed);
    for (unsigned bus = 1; bus <= grid->buses; bus++)
        unconfirmed->has[bus] = grid->unit[bus] && !is_confirmed(grid, bus);
}

/* The search adds exactly a given number of sites, in rising order. */
struct search {
    const struct grid_case *grid;
    unsigned sites[MOST_BUSES];
    size_t site_count;
    struct bus_set added;
};

static size_t count_dark(const struct grid_case *grid, const struct bus_set *observed)
{
    size_t dark = 0;
    for (unsigned bus = 1; bus <= grid->buses; bus++)
        dark += !observed->has[bus];
    return dark;
}

static struct bus_set with_unit(const struct grid_case *grid, const struct bus_set *observed, unsigned bus)
{
    struct bus_set more = *observed;
    add_unit(grid, bus, &more);
    spread_by_zero_injection(grid, &more);
    return more;
}

static bool all_sites_from_cover(const struct search *search, const struct bus_set *observed, size_t from)
{
    struct bus_set more = *observed;
    for (size_t i = from; i < search->site_count; i++)
        add_unit(search->grid, search->sites[i], &more);
    spread_by_zero_injection(search->grid, &more);
    return count_dark(search->grid, &more) == 0;
}

static size_t dark_neighbours(const struct grid_case *grid, const struct bus_set *observed, unsigned bus)
{
    size_t dark = 0;
    for (size_t i = 0; i < grid->neighbour_count[bus]; i++)
        dark += !observed->has[grid->neighbours[bus][i]];
    return dark;
}

/* Whether `units` more units may be enough, by counting: a unit lights its own bus and its dark neighbours, and each
 * Z bus with a dark neighbour lights one bus at most, once. */
static bool enough_by_counting(const struct search *search, const struct bus_set *observed, size_t from, size_t units)
{
    const struct grid_case *grid = search->grid;
    size_t best_unit = 0, by_zero_injection = 0;
    for (size_t i = from; i < search->site_count; i++) {
        unsigned site = search->sites[i];
        size_t lit = !observed->has[site] + dark_neighbours(grid, observed, site);
        if (lit > best_unit)
            best_unit = lit;
    }
    for (unsigned bus = 1; bus <= grid->buses; bus++)
        by_zero_injection += grid->zero_injection[bus] && dark_neighbours(grid, observed, bus) > 0;
    return units * best_unit + by_zero_injection >= count_dark(grid, observed);
}

static bool cover_with(struct search *search, const struct bus_set *observed, size_t from, size_t units)
{
    if (units == 0)
        return count_dark(search->grid, observed) == 0;
    if (!enough_by_counting(search, observed, from, units))
        return false;
    for (size_t i = from; i + units <= search->site_count; i++) {
        if (!all_sites_from_cover(search, observed, i))
            return false;
        struct bus_set more = with_unit(search->grid, observed, search->sites[i]);
        search->added.has[search->sites[i]] = true;
        if (cover_with(search, &more, i + 1, units - 1))
            return true;
        search->added.has[search->sites[i]] = false;
    }
    return false;
}

struct refusal place_fewest(const struct grid_case *grid, size_t budget, struct bus_set *added)
{
    struct search search = {.grid = grid};
    struct bus_set observed;
    if (budget > MOST_BUDGET)
        return refuse(10, 0);
    for (unsigned bus = 1; bus <= grid->buses; bus++)
        if (grid->open_site[bus] && !grid->unit[bus])
            search.sites[search.site_count++] = bus;
    observe(grid, &observed);
    for (size_t units = 0; units <= budget; units++) {
        if (!cover_with(&search, &observed, 0, units))
            continue;
        *added = search.added;
        return accept();
    }
    return refuse(11, 0);
}
