/* Asks the library and document 01 in C the same questions about texts drawn from a seed. Compares the results and
   every byte in and around the memory lent.
   usage: compare SEED COUNT       as many texts as it takes until COUNT of them have a line of several circuits
          compare SEED at INDEX    one of them, with its texts printed
   tests/c/run says SEED and COUNT. This compares 100,000 texts with circuits:
       tools/build day plan rounds estimator && COMPARE_COUNT=100000 tests/c/run */
#include "asking.h"
#include "checking.h"
#include "guarded.h"
#include "texts.h"

#include <stdio.h>
#include <stdlib.h>
#include <string.h>

enum { GUARD = 24, MOST_LENT = 16, NUMBERS = 100, MOST_SHOWN = 3 };

/* Each number that a call can reply must come once among ONE_OF texts with circuits. */
enum { ONE_OF = 2500 };

struct lent {
    uint8_t bytes[GUARD + MOST_LENT + GUARD];
};

/* The texts of one index, given to all four calls. `circuits`: a line of the case has several, damage left aside. */
struct drawn {
    struct text case_text, step_text;
    bool circuits;
    size_t budget;
    size_t set_len;
    struct lent lent;
};

static size_t counts[CALL_COUNT][NUMBERS], mismatches[CALL_COUNT];
static struct guarded case_memory, step_memory;
static char asked_now[60];

static const char *index_at_fault(void)
{
    return asked_now;
}

static size_t draw_budget(struct dice *dice)
{
    static const size_t above[] = {
        9, 10, 64, 255, 256, 65536, (size_t)1 << 32, ((size_t)1 << 32) + 3, SIZE_MAX - 1, SIZE_MAX};
    return percent(dice, 90) ? below(dice, MOST_BUDGET + 1) : above[below(dice, sizeof above / sizeof *above)];
}

static void draw_index(uint64_t seed, size_t index, struct drawn *drawn)
{
    struct dice dice = dice_for(seed, index);
    struct grid_case grid;
    draw_case(&dice, &grid);
    drawn->circuits = has_circuits(&grid);
    drawn->budget = draw_budget(&dice);
    shorten_search(&dice, &grid, drawn->budget);
    write_case_text(&grid, &drawn->case_text);
    if (percent(&dice, 40))
        damage_text(&dice, &drawn->case_text, CASE_TEXT_LIMIT);
    draw_step_text(&dice, &grid, &drawn->step_text);
    if (percent(&dice, 30))
        damage_text(&dice, &drawn->step_text, STEP_TEXT_LIMIT);
    drawn->set_len = percent(&dice, 80) ? between(&dice, 8, MOST_LENT) : below(&dice, MOST_LENT + 1);
    for (size_t i = 0; i < sizeof drawn->lent.bytes; i++)
        drawn->lent.bytes[i] = (uint8_t)draw(&dice);
}

static uint32_t document01_reply(const struct question *q, uint8_t *set, size_t set_len)
{
    switch (q->call) {
    case OBSERVED:
        return document01_observed(q->case_text, q->case_len, set, set_len);
    case UNCONFIRMED:
        return document01_unconfirmed(q->case_text, q->case_len, set, set_len);
    case FEWEST:
        return document01_fewest(q->case_text, q->case_len, q->budget, set, set_len);
    default:
        return document01_replay(q->case_text, q->case_len, q->step_text, q->step_len, set, set_len);
    }
}

static void show(size_t index, const struct drawn *drawn, enum call call, uint32_t library, uint32_t document01)
{
    printf("%s, index %zu, budget %zu, %zu bytes lent: the library replies %lu, document 01 %lu%s\n", call_names[call],
           index, drawn->budget, drawn->set_len, (unsigned long)library, (unsigned long)document01,
           library == document01 ? ", other bytes" : "");
    print_bytes("case text", drawn->case_text.bytes, drawn->case_text.length);
    if (call == REPLAY)
        print_bytes("step text", drawn->step_text.bytes, drawn->step_text.length);
}

static void compare_call(size_t index, const struct drawn *drawn, enum call call, bool shown)
{
    struct lent library_lent = drawn->lent, document01_lent = drawn->lent;
    struct question question = {.call = call,
                                .case_text = drawn->case_text.bytes,
                                .case_len = drawn->case_text.length,
                                .step_text = drawn->step_text.bytes,
                                .step_len = drawn->step_text.length,
                                .budget = drawn->budget};
    uint32_t document01 = document01_reply(&question, document01_lent.bytes + GUARD, drawn->set_len);
    snprintf(asked_now, sizeof asked_now, "%s, index %zu\n", call_names[call], index);
    question.case_text = guard_text(&case_memory, drawn->case_text.bytes, drawn->case_text.length);
    question.step_text = guard_text(&step_memory, drawn->step_text.bytes, drawn->step_text.length);
    uint32_t library = library_reply(&question, library_lent.bytes + GUARD, drawn->set_len);
    bool same = library == document01 && memcmp(&library_lent, &document01_lent, sizeof library_lent) == 0;
    counts[call][document01 % NUMBERS]++;
    mismatches[call] += !same;
    if (shown || (!same && mismatches[call] <= MOST_SHOWN))
        show(index, drawn, call, library, document01);
}

/* Whether the text had circuits. */
static bool compare_index(uint64_t seed, size_t index, bool shown)
{
    static struct drawn drawn;
    draw_index(seed, index, &drawn);
    for (int call = 0; call < CALL_COUNT; call++)
        compare_call(index, &drawn, (enum call)call, shown);
    return drawn.circuits;
}

static void print_counts(enum call call)
{
    printf("%-14s accepted %6zu; refused", call_names[call], counts[call][0]);
    for (size_t number = 1; number < NUMBERS; number++)
        if (counts[call][number] != 0)
            printf(" %zu: %zu", number, counts[call][number]);
    printf("\n");
}

/* Every number that a call can reply, 0 for the accepted, must have turned up often. */
static void check_counts(enum call call, size_t with_circuits)
{
    static const unsigned numbers[CALL_COUNT][16] = {
        {0, 1, 2, 3, 4, 6, NUMBERS},
        {0, 1, 2, 3, 4, 6, NUMBERS},
        {0, 1, 2, 3, 4, 6, 10, 11, NUMBERS},
        {0, 1, 2, 3, 4, 6, 7, 8, 9, 51, 52, 53, 62, NUMBERS},
    };
    char name[100];
    for (const unsigned *number = numbers[call]; *number != NUMBERS; number++) {
        snprintf(name, sizeof name, "%s: only %zu replies with the number %u", call_names[call], counts[call][*number],
                 *number);
        check(counts[call][*number] >= with_circuits / ONE_OF, name);
    }
}

static void check_call(enum call call, size_t with_circuits)
{
    char name[100];
    print_counts(call);
    snprintf(name, sizeof name, "%s: %zu replies differ", call_names[call], mismatches[call]);
    check(mismatches[call] == 0, name);
    check_counts(call, with_circuits);
}

static int compare_all(uint64_t seed, size_t with_circuits)
{
    size_t index = 0;
    for (size_t had = 0; had < with_circuits; index++)
        had += compare_index(seed, index, false);
    printf("seed %lu, %zu case texts, %zu of them with circuits, each with a step text and given to all four calls\n",
           (unsigned long)seed, index, with_circuits);
    for (int call = 0; call < CALL_COUNT; call++)
        check_call((enum call)call, with_circuits);
    return end_of_checks();
}

int main(int argc, char **argv)
{
    make_guarded(&case_memory, TEXT_ROOM);
    make_guarded(&step_memory, TEXT_ROOM);
    say_at_fault(index_at_fault);
    if (argc == 3)
        return compare_all(strtoul(argv[1], NULL, 10), strtoul(argv[2], NULL, 10));
    if (argc != 4 || strcmp(argv[2], "at") != 0) {
        printf("usage: compare SEED COUNT\n       compare SEED at INDEX\n");
        return 2;
    }
    compare_index(strtoul(argv[1], NULL, 10), strtoul(argv[3], NULL, 10), true);
    return 0;
}
