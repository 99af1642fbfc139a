// A study that went before the proved search: the fewest units by groups that are kept.
//
// A group is a set of sites of which every cover has one. What makes it a group is the case alone, so one that is found
// serves the whole search. The study keeps the first 4,096 and replaces none. A later one serves its own call alone.
#ifndef KEPT_GROUPS_H
#define KEPT_GROUPS_H
#include "grid.h"

enum { STUDY_KEEPS = 4096 };

static set study_kept[STUDY_KEEPS], study_given, study_sites;
static int study_count;

static inline set study_near(int b)
{
    return nbr[b] | bus(b);
}

// The least set that has s and is closed under O2.
static inline set study_spread(set s)
{
    for (set before = 0; before != s;) {
        before = s;
        for (set left = zero & s; left; left &= left - 1) {
            set dark = nbr[low(left)] & ~s;
            if (count(dark) == 1)
                s |= dark;
        }
    }
    return s;
}

static inline set study_observed(set chosen)
{
    set s = study_given;
    for (; chosen; chosen &= chosen - 1)
        s |= study_near(low(chosen));
    return study_spread(s);
}

// Puts the sites that leave a bus dark on s, and gives those that do not.
static inline set study_refused(set *s, set sites)
{
    set group = 0;
    for (set left = sites; left; left &= left - 1) {
        set t = study_spread(*s | study_near(low(left)));
        if (t == all)
            group |= bus(low(left));
        else
            *s = t;
    }
    return group;
}

// `chosen` does not cover: the sites that cannot be added without covering. Those of `allowed` are tried last, so that
// few of them are left.
static inline set study_group(set chosen, set allowed)
{
    set s = study_observed(chosen), open = study_sites & ~chosen;
    set group = study_refused(&s, open & ~allowed);
    return group | study_refused(&s, open & allowed);
}

// What the kept groups say: 1 if there is no cover; else the smallest group that `chosen` does not meet, or 0.
static inline int study_asked(set chosen, set allowed, int k, set *smallest)
{
    set used = 0;
    int apart = 0;
    *smallest = 0;
    for (int i = 0; i < study_count; i++) {
        if (study_kept[i] & chosen)
            continue;
        set open = study_kept[i] & allowed;
        if (!open)
            return 1;
        if (!*smallest || count(open) < count(*smallest))
            *smallest = open;
        if (open & used)
            continue;
        used |= open;
        if (++apart > k)
            return 1;
    }
    return 0;
}

// Whether there is a cover of `chosen` and at most k sites of `allowed`.
static int study_possible(set chosen, set allowed, int k)
{
    set tries;
    if (study_asked(chosen, allowed, k, &tries))
        return 0;
    if (!tries) {
        if (study_observed(chosen) == all)
            return 1;
        set group = study_group(chosen, allowed);
        if (study_count < STUDY_KEEPS) {
            study_kept[study_count++] = group;
            return study_possible(chosen, allowed, k);
        }
        tries = group & allowed;
        if (!tries || k == 0)
            return 0;
    }
    for (; tries; tries &= tries - 1) {
        set x = bus(low(tries));
        allowed &= ~x;
        if (study_possible(chosen | x, allowed, k - 1))
            return 1;
    }
    return 0;
}

// The first k of the sites above, rising, that cover together with `chosen`.
static int study_search(set chosen, set above, int k, set *answer)
{
    if (!study_possible(chosen, above, k))
        return 0;
    if (k == 0) {
        *answer = chosen;
        return 1;
    }
    for (set left = above; left; left &= left - 1) {
        set x = bus(low(left));
        if (study_search(chosen | x, left & ~x, k - 1, answer))
            return 1;
    }
    return 0;
}

// How many units the answer has; -1 if the budget is too small.
static inline int study_fewest(int budget, set *answer)
{
    study_count = 0;
    study_sites = site & ~units;
    study_given = 0;
    study_given = study_observed(units);
    for (int k = 0; k <= budget; k++)
        if (study_search(0, study_sites, k, answer))
            return k;
    return -1;
}
#endif
