/* Runs the three programs on inputs drawn from a fixed seed and compares what they print with document 01 in C.
   usage: programs DAY PLAN ROUNDS [EMULATOR WORDS] */
#include "checking.h"
#include "programs_by_hand.h"
#include "running.h"
#include "texts.h"

#include <stdio.h>
#include <string.h>

enum { SEED = 7002, INPUTS = 2000, NUMBERS = 14, LEAST_OF_EACH = 10, MOST_SHOWN = 3 };

static size_t counts[PROGRAM_COUNT][NUMBERS], mismatches[PROGRAM_COUNT];

static void draw_case_input(struct dice *dice, const struct grid_case *grid, struct text *input)
{
    write_case_text(grid, input);
    if (percent(dice, 40))
        damage_text(dice, input, CASE_TEXT_LIMIT);
}

static void draw_day_input(struct dice *dice, struct text *input)
{
    struct grid_case grid;
    draw_case(dice, &grid);
    draw_case_input(dice, &grid, input);
}

/* Half of the grids have one unit and zero injection at almost every bus, since the others have few rounds. */
static void draw_rounds_input(struct dice *dice, struct text *input)
{
    struct grid_case grid;
    draw_case(dice, &grid);
    if (percent(dice, 50)) {
        for (unsigned bus = 1; bus <= grid.buses; bus++) {
            grid.zero_injection[bus] = percent(dice, 98);
            grid.unit[bus] = false;
        }
        grid.unit[between(dice, 1, grid.buses)] = true;
    }
    draw_case_input(dice, &grid, input);
}

static void append(struct text *text, const struct text *more)
{
    memcpy(text->bytes + text->length, more->bytes, more->length);
    text->length += more->length;
}

/* One in four is damaged anywhere, the plan line counted in, one in four only in its case text. */
static void draw_plan_input(struct dice *dice, struct text *input)
{
    static struct text case_text;
    struct grid_case grid;
    size_t budget, kind = below(dice, 100);
    draw_case(dice, &grid);
    draw_plan_line(dice, input, &budget);
    shorten_search(dice, &grid, budget);
    write_case_text(&grid, &case_text);
    append(input, &case_text);
    if (kind < 25) {
        damage_text(dice, input, CASE_TEXT_LIMIT);
    } else if (kind < 50) {
        input->length -= case_text.length;
        damage_text(dice, &case_text, CASE_TEXT_LIMIT - input->length);
        if (input->length + case_text.length <= TEXT_ROOM)
            append(input, &case_text);
    }
}

/* How each program's inputs are drawn, and what it must print for one. */
static const struct {
    void (*draw)(struct dice *dice, struct text *input);
    size_t (*print)(const uint8_t *input, size_t length, char printed[MOST_PRINTED], unsigned *number);
} programs[PROGRAM_COUNT] = {
    {draw_day_input, print_day_report}, {draw_plan_input, print_plan}, {draw_rounds_input, print_rounds}};

static void compare_input(enum program program, size_t index, const struct text *input)
{
    static const enum feeding feedings[] = {FEED_PIPE, FEED_PIPE, FEED_PIPE, FEED_FILE};

    char expected[MOST_PRINTED];
    struct printed printed;
    unsigned number;
    size_t length = programs[program].print(input->bytes, input->length, expected, &number);
    run_program(program, feedings[index % 4], input->bytes, input->length, &printed);
    bool same = printed.ended_well && printed.length == length && memcmp(printed.bytes, expected, length) == 0;
    counts[program][number]++;
    mismatches[program] += !same;
    if (same || mismatches[program] > MOST_SHOWN)
        return;
    printf("%s, index %zu%s\n", program_names[program], index, printed.ended_well ? "" : ", not ended with status 0");
    print_bytes("input", input->bytes, input->length);
    print_bytes("printed", (const uint8_t *)printed.bytes, printed.length);
    print_bytes("expected", (const uint8_t *)expected, length);
}

static void compare_all(enum program program)
{
    static struct text input;
    for (size_t index = 0; index < INPUTS; index++) {
        struct dice dice = dice_for(SEED + program, index);
        programs[program].draw(&dice, &input);
        compare_input(program, index, &input);
    }
}

static void print_counts(enum program program)
{
    printf("%-6s %d inputs: accepted %zu; refused", program_names[program], INPUTS, counts[program][0]);
    for (size_t number = 1; number < NUMBERS; number++)
        if (counts[program][number] != 0)
            printf(" %zu: %zu", number, counts[program][number]);
    printf("\n");
}

static void check_program(enum program program)
{
    static const unsigned numbers[PROGRAM_COUNT][10] = {
        {0, 1, 2, 3, 4, NUMBERS}, {0, 1, 2, 3, 4, 10, 11, NUMBERS}, {0, 1, 2, 3, 4, NUMBERS}};
    char name[100];
    compare_all(program);
    print_counts(program);
    snprintf(name, sizeof name, "%s: %zu outputs differ", program_names[program], mismatches[program]);
    check(mismatches[program] == 0, name);
    for (const unsigned *number = numbers[program]; *number != NUMBERS; number++) {
        snprintf(name, sizeof name, "%s: only %zu replies with the number %u", program_names[program],
                 counts[program][*number], *number);
        check(counts[program][*number] >= LEAST_OF_EACH, name);
    }
}

int main(int argc, char **argv)
{
    if (argc < 1 + PROGRAM_COUNT) {
        printf("usage: programs DAY PLAN ROUNDS [EMULATOR WORDS]\n");
        return 2;
    }
    prepare_running(argv + 1, argc - 1);
    check_day_by_hand();
    check_plan_by_hand();
    check_rounds_by_hand();
    check_standard_input();
    check_program(DAY);
    check_program(PLAN);
    check_program(ROUNDS);
    return end_of_checks();
}
