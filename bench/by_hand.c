// The observed set, observation in rounds and the search for the fewest units, written by hand in C. They work as the
// crates observe, round_list, place_pool, place_bound and place_fewest do. `fewest`, `count`, `observed`, `rounds` and
// `near` read a case text on standard input.
//   by_hand calls GRIDS              for GRIDS grids of each family, of 64 buses and with a budget of 8: the calls that
//                                    the search makes (of itself and of its cut), and the time of the slowest grid
//   by_hand write FAMILY SIZE ZEROS  the text of one grid: family 0 meshes, 1 random with SIZE lines, 2 rooks' grids
//   by_hand fewest                   what the program timed prints for the fewest
//   by_hand count                    how many calls the search makes
//   by_hand observed                 what the program timed prints for the observed set
//   by_hand rounds TIMES             what the program timed prints for observation in rounds
//   by_hand near TIMES               the same by C that does less than the crate: it looks at a bus's neighbours alone
#include "drawn.h"
#include "grid.h"

#include <time.h>

enum { MOST_KEPT = 1000, ENOUGH_KEPT = 200, MOST_LISTED = 128 };

static unsigned long calls;

// ---- the observed set

static set spread(set s)
{
    for (;;) {
        set r = s;
        for (set left = zero & s; left; left &= left - 1) {
            set m = nbr[low(left)];
            if (count(m & ~r) == 1)
                r |= m;
        }
        if (r == s)
            return s;
        s = r;
    }
}

static set start(set u)
{
    set s = u;
    for (; u; u &= u - 1)
        s |= nbr[low(u)];
    return s;
}

// ---- observation in rounds

static int by_unit(int b, int p)
{
    return units & bus(p) && nbr[p] & bus(b);
}

static int by_zero(set s, int b, int w)
{
    return zero & s & bus(w) && nbr[w] & bus(b) && !(nbr[w] & ~(s | bus(b)));
}

// Whether a reason holds for b, by each bus of the grid.
static int given(set s, int b)
{
    if (units & bus(b))
        return 1;
    for (int p = 0; p < n; p++)
        if (by_unit(b, p) || by_zero(s, b, p))
            return 1;
    return 0;
}

// The same by the neighbours of b alone.
static int given_near(set s, int b)
{
    if (units & (nbr[b] | bus(b)))
        return 1;
    for (set left = nbr[b] & zero & s; left; left &= left - 1)
        if (!(nbr[low(left)] & ~(s | bus(b))))
            return 1;
    return 0;
}

// What the round that begins with s adds.
static inline set one_round(set s, int near)
{
    set new = 0;
    for (int b = 0; b < n; b++)
        if (!(s & bus(b)) && (near ? given_near(s, b) : given(s, b)))
            new |= bus(b);
    return new;
}

static size_t put_round(uint64_t *room, size_t end, set r)
{
    room[end++] = (uint64_t)count(r);
    for (; r; r &= r - 1)
        room[end++] = (uint64_t)low(r) + 1;
    return end;
}

// How many rounds add a bus; -1 if their list is longer than the room.
static int in_rounds(uint64_t *room, size_t most, int near)
{
    set sets[64], s = 0;
    size_t length = 0;
    int rounds = 0;
    for (set new; (new = one_round(s, near)); s |= new) {
        sets[rounds++] = new;
        length += 1 + (size_t)count(new);
    }
    if (length > most)
        return -1;
    length = 0;
    for (int i = 0; i < rounds; i++)
        length = put_round(room, length, sets[i]);
    return rounds;
}

// ---- the groups that are kept, the oldest first; the first empty one ends them

static set kept[MOST_KEPT], free_sites;

struct hints {
    set left, tries, used;
    int least, apart;
};

static void keep(set group)
{
    int i = 0;
    while (i < MOST_KEPT && kept[i])
        i++;
    if (i == MOST_KEPT) {
        memmove(kept, kept + 1, sizeof kept - sizeof *kept);
        i--;
    }
    kept[i] = group;
}

// What is said once this group is asked too.
static inline void ask(struct hints *a, set group, int k)
{
    set choice = group & a->left;
    int size = count(choice);
    if (!choice) {
        a->apart = k + 1;
        return;
    }
    if (!a->apart || size < a->least) {
        a->tries = choice;
        a->least = size;
    }
    if (!(choice & a->used)) {
        a->used |= choice;
        if (++a->apart == k)
            a->left &= a->used;
    } else if (k == 1)
        a->left = choice;
}

// What the kept groups say of a cover by the units u and at most k of the sites.
static struct hints ask_kept(set u, set sites, int k)
{
    struct hints a = {sites, sites, 0, 0, 0};
    for (int i = 0; i < MOST_KEPT && kept[i] && a.apart <= k; i++)
        if (!(kept[i] & u))
            ask(&a, kept[i], k);
    return a;
}

// ---- the search

// c with trial units at the sites, the highest first, as many as leave a bus missing.
static set shrunk(set c, set sites)
{
    for (set left = sites; left; left &= ~bus(high(left))) {
        int x = high(left);
        set here = nbr[x] | bus(x);
        if (!(here & ~c))
            continue;
        set d = spread(c | here);
        if (!full(d))
            c = d;
    }
    return c;
}

static set new_group(set s, set sites)
{
    set c = shrunk(shrunk(s, free_sites & ~sites), sites);
    set group = free_sites & start(all & ~c);
    keep(group);
    return group;
}

// The sites of which a cover by the units u and at most k of the sites has one; 0 in `covered` if it must have one.
static set branch(set u, set sites, int k, int *covered)
{
    struct hints a = ask_kept(u, sites, k);
    *covered = 0;
    if (a.apart > k)
        return 0;
    if (a.apart > 0)
        return a.tries;
    set s = spread(start(u));
    if (full(s)) {
        *covered = 1;
        return 0;
    }
    if (k == 0 && kept[ENOUGH_KEPT])
        return 0;
    set group = new_group(s, sites);
    return k == 0 ? 0 : group & sites;
}

static int hopeless(set u, set sites, int k)
{
    int covered;
    calls++;
    set tries = branch(u, sites, k, &covered);
    if (covered)
        return 0;
    for (; tries; tries &= tries - 1) {
        set x = bus(low(tries));
        sites &= ~x;
        if (!hopeless(u | x, sites, k - 1))
            return 0;
    }
    return 1;
}

static int search(set u, set sites, int k, set *found)
{
    calls++;
    if (k == 0)
        return full(spread(start(u))) ? (*found = 0, 1) : 0;
    if (hopeless(u, sites, k))
        return 0;
    for (set left = sites; left;) {
        set x = bus(low(left));
        left &= ~x;
        if (search(u | x, left, k - 1, found)) {
            *found |= x;
            return 1;
        }
    }
    return 0;
}

// Keeps groups that have no site in common.
static void seed_groups(int budget)
{
    set s = spread(start(units));
    for (int m = 0; m <= budget && !full(s); m++)
        s = spread(s | start(new_group(s, free_sites)));
}

static int fewest(int budget, set *found)
{
    free_sites = site & ~units;
    memset(kept, 0, sizeof kept);
    seed_groups(budget);
    for (int k = 0; k <= budget; k++)
        if (search(units, free_sites, k, found))
            return k;
    return -1;
}

// ---- the families

static void mesh(int renumbered, int torus)
{
    int p[64];
    shuffle(p, 64);
    if (!renumbered)
        for (int i = 0; i < 64; i++)
            p[i] = i;
    for (int r = 0; r < 8; r++)
        for (int c = 0; c < 8; c++) {
            if (c < 7 || torus)
                line(p[r * 8 + c], p[r * 8 + (c + 1) % 8], 1);
            if (r < 7 || torus)
                line(p[r * 8 + c], p[(r + 1) % 8 * 8 + c], 1);
        }
}

static void rooks(int m, int many)
{
    int p[64];
    shuffle(p, 64);
    for (int o = 0; o < many; o++)
        for (int i = 0; i < m * m; i++)
            for (int j = 0; j < i; j++)
                if (i / m == j / m || i % m == j % m)
                    line(p[o * m * m + i], p[o * m * m + j], 1);
    for (int i = many * m * m; i < 64; i++)
        line(p[i], p[i - 1], 1);
}

static void grid(int kind, int size, int many_zeros, int g)
{
    seed = (uint64_t)(kind * 1000 + size * 10 + many_zeros) * 7919u + (uint64_t)g;
    clear(64);
    site = all;
    if (kind == 0)
        mesh(size & 1, size >> 1);
    else if (kind == 1)
        chance(size);
    else
        rooks(size, 64 / (size * size));
    zero = some(many_zeros);
}

static void family(const char *name, int kind, int size, int grids)
{
    static const int parts[5] = {0, 21, 32, 43, 64};
    for (int z = 0; z < 5; z++) {
        unsigned long most = 0;
        double slowest = 0;
        for (int g = 0; g < grids; g++) {
            set found;
            grid(kind, size, parts[z], g);
            calls = 0;
            clock_t t = clock();
            fewest(8, &found);
            double s = (double)(clock() - t) / CLOCKS_PER_SEC;
            if (calls > most)
                most = calls;
            if (s > slowest)
                slowest = s;
        }
        printf("%-22s %2d Z: most calls %9lu, slowest %7.3f s\n", name, parts[z], most, slowest);
        fflush(stdout);
    }
}

static void families(int grids)
{
    family("8 by 8 mesh", 0, 0, grids);
    family("renumbered mesh", 0, 1, grids);
    family("renumbered torus", 0, 3, grids);
    for (int lines = 80; lines <= 256; lines += 44) {
        char name[40];
        snprintf(name, sizeof name, "random, %d lines", lines);
        family(name, 1, lines, grids);
    }
    family("4 by 4 rooks' grids", 2, 4, grids);
    family("5 by 5 rooks' grids", 2, 5, grids);
}

// ---- what is asked

static int read_fewest(int counted)
{
    set found;
    if (!read_text() || !valid())
        return 1;
    int k = fewest(8, &found);
    if (counted)
        return printf("%lu\n", calls) < 0;
    return printf("%llu\n", k < 0 ? 0ull : (unsigned long long)found) < 0;
}

static int read_observed(void)
{
    volatile set last = 0;
    if (!read_text())
        return 1;
    for (int i = 0; i < 200000; i++) {
        __asm__ volatile("" ::: "memory");
        last = valid() ? spread(start(units)) : 0;
    }
    return printf("%llu\n", (unsigned long long)last) < 0;
}

// All numbers of the room, mixed into one.
static uint64_t mixed(const uint64_t *room)
{
    uint64_t sum = 0;
    for (int i = 0; i < MOST_LISTED; i++)
        sum = sum % 1000003 * 1009 + room[i] % 1009;
    return sum % 1000003;
}

static int read_rounds(long times, int near)
{
    static uint64_t room[MOST_LISTED];
    int rounds = 0;
    if (!read_text())
        return 1;
    for (; times > 0; times--) {
        __asm__ volatile("" ::: "memory");
        rounds = valid() ? in_rounds(room, MOST_LISTED, near) : 0;
    }
    return printf("%llu\n", (unsigned long long)mixed(room) * 100 + (unsigned long long)rounds) < 0;
}

static int write_text(int kind, int size, int many_zeros)
{
    static char room[16384];
    grid(kind, size, many_zeros, 0);
    size_t end = case_text(room);
    return fwrite(room, 1, end, stdout) != end;
}

int main(int c, char **v)
{
    if (c > 1 && (!strcmp(v[1], "fewest") || !strcmp(v[1], "count")))
        return read_fewest(v[1][0] == 'c');
    if (c > 1 && !strcmp(v[1], "observed"))
        return read_observed();
    if (c > 2 && (!strcmp(v[1], "rounds") || !strcmp(v[1], "near")))
        return read_rounds(atol(v[2]), v[1][0] == 'n');
    if (c > 4 && !strcmp(v[1], "write"))
        return write_text(atoi(v[2]), atoi(v[3]), atoi(v[4]));
    families(c > 2 ? atoi(v[2]) : 3);
}
