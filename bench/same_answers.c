// Asks the library's wz_fewest and the study (kept_groups.h) for the fewest units of grids drawn by chance, and stops
// if two answers differ. The grids have 1 to 64 buses, 0 to 256 lines and a budget of 0 to 8. Classes, sites and
// installed units are drawn too.
//   same_answers GRIDS SEED    prints how many grids were answered and refused, by their size
#include "drawn.h"
#include "kept_groups.h"
#include "wozgrzyt.h"

enum { BANDS = 5, MOST_BUDGET = 8, SET_BYTES = 8, NO_ADDITION = 11 };

static const int band_end[BANDS] = {8, 16, 32, 48, 64};

static int least(int a, int b)
{
    return a < b ? a : b;
}

// A part of the n buses: none, all, or a share that is drawn too.
static set share(void)
{
    int kind = dice(6);
    if (kind == 0)
        return 0;
    return kind == 1 ? all : some(dice(n + 1));
}

// Half of the grids have few lines: at most three at a bus on average. One in four may have fewer than n - 1.
static void draw(void)
{
    clear(1 + dice(64));
    int most = least(256, n * (n - 1) / 2), fewest = dice(4) ? n - 1 : 0;
    if (dice(2))
        most = least(most, 3 * n / 2);
    chance(fewest + dice(most - fewest + 1));
    zero = share();
    site = dice(3) ? all : share();
    units = dice(3) ? 0 : some(dice(least(n, 6) + 1));
}

// The library's answer: how many units, -1 for refusal 11, and -2 for any other.
static int library_fewest(int budget, set *answer)
{
    static char room[16384];
    uint8_t bytes[SET_BYTES] = {0};
    uint32_t result = wz_fewest((const uint8_t *)room, case_text(room), (size_t)budget, bytes, sizeof bytes);
    if (result)
        return result == NO_ADDITION ? -1 : -2;
    *answer = 0;
    for (int i = 0; i < SET_BYTES; i++)
        *answer |= (set)bytes[i] << 8 * i;
    return count(*answer);
}

static int differs(int budget)
{
    set ours = 0, theirs = 0;
    int mine = library_fewest(budget, &ours), other = study_fewest(budget, &theirs);
    return mine != other || ours != theirs ? -2 : mine;
}

static int band(void)
{
    int i = 0;
    while (n > band_end[i])
        i++;
    return i;
}

static void print_table(long answered[BANDS][MOST_BUDGET + 1], const long *refused)
{
    puts("| buses | no unit | 1 | 2 | 3 | 4 | 5 | 6 | 7 | 8 units | refused (11) "
         "|\n|---|---|---|---|---|---|---|---|---|---|---|");
    for (int i = 0; i < BANDS; i++) {
        printf("| %d to %d |", i ? band_end[i - 1] + 1 : 1, band_end[i]);
        for (int k = 0; k <= MOST_BUDGET; k++)
            printf(" %ld |", answered[i][k]);
        printf(" %ld |\n", refused[i]);
    }
}

int main(int c, char **v)
{
    static long answered[BANDS][MOST_BUDGET + 1], refused[BANDS];
    if (c != 3)
        return 2;
    long grids = atol(v[1]), all_answered = 0;
    seed = strtoull(v[2], NULL, 10);
    for (long g = 0; g < grids; g++) {
        draw();
        int budget = dice(MOST_BUDGET + 1), k = differs(budget);
        if (k == -2) {
            static char room[16384];
            room[case_text(room)] = 0;
            printf("same_answers: grid %ld, budget %d: the answers differ\n%s", g + 1, budget, room);
            return 1;
        }
        if (k < 0)
            refused[band()]++;
        else
            answered[band()][k]++;
        all_answered += k >= 0;
    }
    print_table(answered, refused);
    return printf("%ld grids, the same answers: %ld answered, %ld refused\n", grids, all_answered,
                  grids - all_answered) < 0;
}
