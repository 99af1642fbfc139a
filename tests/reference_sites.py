"""Document 01's calls on placing units, by trying all placements in order.

The fewest of a grid with few sites, or with few units missing, take moments; others take hours.
"""
import itertools

from reference import Refused, check, observed, spread

MOST_BUDGET, MOST_GREEDY_BUDGET = 8, 64


def unconfirmed(case):
    """The units that no other unit confirms."""
    check(case)

    def confirm(a, b):
        return b in case.rows[a] or case.rows[a] & case.rows[b]

    return {a for a in case.units if not any(a != b and confirm(a, b) for b in case.units)}


def with_unit(case, seen, x):
    """What is observed with a unit at x besides."""
    return spread(case, seen | {x} | case.rows[x])


def greedy(case, budget, room):
    """The sites added, in their order, into room for so many."""
    check(case)
    if budget > MOST_GREEDY_BUDGET:
        raise Refused(10, 0)
    units, seen, added = set(case.units), observed(case, case.units), []
    while len(added) < budget:
        sizes = [(-len(with_unit(case, seen, x)), x) for x in sorted(case.site - units)]
        if not sizes or -min(sizes)[0] <= len(seen):
            break
        x = min(sizes)[1]
        units.add(x)
        added.append(x)
        seen = with_unit(case, seen, x)
    if len(added) > room:
        raise Refused(6, 0)
    return added


def fewest(case, budget):
    """The first of the smallest additions that make all buses observed."""
    check(case)
    if budget > MOST_BUDGET:
        raise Refused(10, 0)
    free, seen = sorted(case.site - case.units), observed(case, case.units)
    for k in range(min(budget, len(free)) + 1):
        for xs in itertools.combinations(free, k):
            if len(spread(case, seen.union(xs, *(case.rows[x] for x in xs)))) == case.n:
                return xs
    raise Refused(11, 0)
