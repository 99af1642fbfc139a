// Sets of buses, and one grid: its lines with their circuits, classes, sites and installed units. Bus b is the bit
// b - 1 of a set.
// What the programs of this folder share. A program includes it once, in the file that has its search, so that the
// compiler can build these functions into it.
#ifndef GRID_H
#define GRID_H
#include <stdint.h>
#include <stdio.h>
#include <stdlib.h>
#include <string.h>
typedef uint64_t set;

// The binary digits of a line's circuits: those to which bus a counts a number with digit d are in circuits[d][a].
enum { DIGITS = 4 };

static int n;
static set nbr[64], circuits[DIGITS][64], zero, all, site, units;

static inline int count(set s)
{
    return __builtin_popcountll(s);
}

static inline int low(set s)
{
    return __builtin_ctzll(s);
}

static inline int high(set s)
{
    return 63 - __builtin_clzll(s);
}

static inline set bus(int b)
{
    return (set)1 << b;
}

static inline int full(set s)
{
    return !(all & ~s);
}

// No line, no zero injection, no site and no unit among so many buses.
static inline void clear(int buses)
{
    n = buses;
    all = n == 64 ? ~(set)0 : bus(n) - 1;
    zero = site = units = 0;
    memset(nbr, 0, sizeof nbr);
    memset(circuits, 0, sizeof circuits);
}

// A line of k circuits between two buses that had none.
static inline void line(int a, int b, int k)
{
    nbr[a] |= bus(b);
    nbr[b] |= bus(a);
    for (int d = 0; d < DIGITS; d++)
        if (k >> d & 1) {
            circuits[d][a] |= bus(b);
            circuits[d][b] |= bus(a);
        }
}

// The circuits from a to b, as seen from a.
static inline int circuits_to(int a, int b)
{
    int k = 0;
    for (int d = 0; d < DIGITS; d++)
        k |= (int)(circuits[d][a] >> b & 1) << d;
    return k;
}

static inline int read_bus(void)
{
    int b;
    char class, allowed;
    if (scanf("%d %c %c", &b, &class, &allowed) != 3)
        return 0;
    if (class == 'Z')
        zero |= bus(b - 1);
    if (allowed == 'Y')
        site |= bus(b - 1);
    return 1;
}

// Reads the ends of a line, and its circuits if a tab comes before a third number; 0 if they are missing.
static inline int read_line(void)
{
    int a, b, k = 1;
    if (scanf("%d %d", &a, &b) != 2)
        return 0;
    if (getchar() == '\t' && scanf("%d", &k) != 1)
        return 0;
    line(a - 1, b - 1, k);
    return 1;
}

// Reads a case text that is right on standard input; 0 if it is none.
static inline int read_text(void)
{
    char kind[8];
    int a;
    while (scanf("%7s", kind) == 1 && strcmp(kind, "end"))
        if (!strcmp(kind, "bus")) {
            if (!read_bus())
                return 0;
        } else if (!strcmp(kind, "line")) {
            if (!read_line())
                return 0;
        } else {
            if (scanf("%d", &a) != 1)
                return 0;
            if (!strcmp(kind, "grid"))
                clear(a);
            else
                units |= bus(a - 1);
        }
    return 1;
}

// Whether a counts 1 to 8 circuits to its neighbours, as each of them does to a, and none to another bus.
static inline int well_counted(int a)
{
    set low_digits = circuits[0][a] | circuits[1][a] | circuits[2][a], top = circuits[3][a];
    if ((low_digits | top) != nbr[a] || low_digits & top)
        return 0;
    for (set left = nbr[a]; left; left &= left - 1)
        if (circuits_to(a, low(left)) != circuits_to(low(left), a))
            return 0;
    return 1;
}

static inline int valid(void)
{
    int lines = 0;
    if (n < 1 || n > 64 || (zero | site | units) & ~all)
        return 0;
    for (int a = 0; a < 64; a++)
        for (set left = nbr[a]; left; left &= left - 1) {
            int b = low(left);
            if (a >= n || b >= n || a == b || !(nbr[b] & bus(a)))
                return 0;
        }
    for (int a = 0; a < 64; a++)
        if (!well_counted(a))
            return 0;
    for (int a = 0; a < n; a++)
        lines += count(nbr[a] & (bus(a) - 1));
    return lines <= 256;
}

// The case text of the grid, in a room that is large enough for every grid.
static inline size_t case_text(char *room)
{
    size_t end = (size_t)sprintf(room, "grid\t%d\n", n);
    for (int b = 0; b < n; b++)
        end += (size_t)sprintf(room + end, "bus\t%d\t%c\t%c\n", b + 1, zero & bus(b) ? 'Z' : 'I',
                               site & bus(b) ? 'Y' : 'N');
    for (int a = 0; a < n; a++)
        for (set above = nbr[a] & ~(bus(a) | (bus(a) - 1)); above; above &= above - 1) {
            int b = low(above), k = circuits_to(a, b);
            end += (size_t)sprintf(room + end, "line\t%d\t%d", a + 1, b + 1);
            end += (size_t)sprintf(room + end, k > 1 ? "\t%d\n" : "\n", k);
        }
    for (set left = units; left; left &= left - 1)
        end += (size_t)sprintf(room + end, "pmu\t%d\n", low(left) + 1);
    return end + (size_t)sprintf(room + end, "end\n");
}
#endif
