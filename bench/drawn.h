// Grids drawn by chance: what by_hand.c and same_answers.c share.
#ifndef DRAWN_H
#define DRAWN_H
#include "grid.h"
static uint64_t seed;

static inline int dice(int m)
{
    seed = seed * 6364136223846793005u + 1442695040888963407u;
    return (int)((seed >> 33) % (uint64_t)m);
}

// p becomes the numbers 0 to many - 1 in an order drawn by chance.
static inline void shuffle(int *p, int many)
{
    for (int i = 0; i < many; i++)
        p[i] = i;
    for (int i = many - 1; i > 0; i--) {
        int j = dice(i + 1), t = p[i];
        p[i] = p[j];
        p[j] = t;
    }
}

// So many of the n buses.
static inline set some(int many)
{
    int p[64];
    set s = 0;
    shuffle(p, n);
    for (int i = 0; i < many; i++)
        s |= bus(p[i]);
    return s;
}

// So many lines, each between two buses that had none.
static inline void chance(int lines)
{
    while (lines) {
        int a = dice(n), b = dice(n);
        if (a != b && !(nbr[a] & bus(b))) {
            line(a, b, 1);
            lines--;
        }
    }
}
#endif
