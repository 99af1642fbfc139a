/* Drawn cases: sizes from 1 to 64, lines in several shapes, any share of lines with several circuits, of Z buses, of
 * open sites and of units. */
#include "texts.h"

#include <stdarg.h>
#include <stdio.h>
#include <string.h>

void add_line(struct text *text, const char *format, ...)
{
    char line[64];
    va_list values;
    va_start(values, format);
    size_t length = (size_t)vsnprintf(line, sizeof line, format, values);
    va_end(values);
    if (length >= sizeof line || text->length + length > TEXT_ROOM)
        return;
    memcpy(text->bytes + text->length, line, length);
    text->length += length;
}

/* A grid being drawn: `number[i]` is the bus number of its i-th bus, so that shapes do not follow the numbers, and
 * `several` the share of its lines with several circuits, in percent. */
struct drawing {
    struct dice *dice;
    struct grid_case *grid;
    unsigned number[MOST_BUSES];
    size_t lines;
    size_t several;
};

static void join(struct drawing *drawing, size_t i, size_t j)
{
    unsigned a = drawing->number[i], b = drawing->number[j];
    if (a == b || drawing->grid->joined[a][b] || drawing->lines == MOST_LINES)
        return;
    bool several = percent(drawing->dice, drawing->several);
    unsigned circuits = several ? (unsigned)between(drawing->dice, LEAST_SAID_CIRCUITS, MOST_CIRCUITS) : 1;
    join_buses(drawing->grid, a, b, circuits);
    drawing->lines++;
}

static void draw_numbers(struct drawing *drawing)
{
    size_t buses = drawing->grid->buses;
    bool in_order = percent(drawing->dice, 30);
    for (size_t i = 0; i < buses; i++)
        drawing->number[i] = (unsigned)i + 1;
    for (size_t i = buses; !in_order && i > 1; i--) {
        size_t j = below(drawing->dice, i);
        unsigned moved = drawing->number[j];
        drawing->number[j] = drawing->number[i - 1];
        drawing->number[i - 1] = moved;
    }
}

static void draw_star(struct drawing *drawing)
{
    for (size_t i = 1; i < drawing->grid->buses; i++)
        join(drawing, 0, i);
}

static void draw_path(struct drawing *drawing)
{
    for (size_t i = 1; i < drawing->grid->buses; i++)
        join(drawing, i - 1, i);
}

static void draw_ring(struct drawing *drawing)
{
    draw_path(drawing);
    join(drawing, 0, drawing->grid->buses - 1);
}

static void draw_tree(struct drawing *drawing)
{
    for (size_t i = 1; i < drawing->grid->buses; i++)
        join(drawing, below(drawing->dice, i), i);
}

static void draw_mesh(struct drawing *drawing)
{
    size_t buses = drawing->grid->buses, width = between(drawing->dice, 2, 8);
    for (size_t i = 0; i < buses; i++) {
        if (i % width != 0)
            join(drawing, i - 1, i);
        if (i >= width)
            join(drawing, i - width, i);
    }
}

static void draw_by_chance(struct drawing *drawing, size_t tries)
{
    for (size_t tried = 0; tried < tries; tried++) {
        size_t i = below(drawing->dice, drawing->grid->buses), j = below(drawing->dice, drawing->grid->buses);
        join(drawing, i, j);
    }
}

static void draw_lines(struct drawing *drawing)
{
    size_t buses = drawing->grid->buses;
    switch (below(drawing->dice, 8)) {
    case 0:
        return;
    case 1:
        draw_star(drawing);
        return;
    case 2:
        draw_path(drawing);
        return;
    case 3:
        draw_ring(drawing);
        return;
    case 4:
        draw_mesh(drawing);
        return;
    case 5:
        draw_tree(drawing);
        draw_by_chance(drawing, below(drawing->dice, buses));
        return;
    case 6:
        draw_by_chance(drawing, below(drawing->dice, 3 * buses));
        return;
    default:
        draw_by_chance(drawing, 20 * buses);
    }
}

/* A share in percent: often none or all. */
static size_t draw_share(struct dice *dice)
{
    if (percent(dice, 25))
        return 0;
    return percent(dice, 30) ? 100 : between(dice, 1, 99);
}

static size_t draw_size(struct dice *dice)
{
    size_t kind = below(dice, 10);
    if (kind < 7)
        return between(dice, 1, 12);
    return kind < 8 ? between(dice, 13, 63) : MOST_BUSES;
}

static void draw_units(struct dice *dice, struct grid_case *grid)
{
    size_t share = draw_share(dice);
    if (percent(dice, 30))
        return;
    if (percent(dice, 60)) {
        for (size_t units = below(dice, 6); units > 0; units--)
            grid->unit[between(dice, 1, grid->buses)] = true;
        return;
    }
    for (unsigned bus = 1; bus <= grid->buses; bus++)
        grid->unit[bus] = percent(dice, share);
}

void draw_case(struct dice *dice, struct grid_case *grid)
{
    struct drawing drawing = {.dice = dice, .grid = grid};
    memset(grid, 0, sizeof *grid);
    grid->buses = draw_size(dice);
    draw_numbers(&drawing);
    drawing.several = draw_share(dice);
    draw_lines(&drawing);
    size_t zero_injection = draw_share(dice), open_sites = draw_share(dice);
    for (unsigned bus = 1; bus <= grid->buses; bus++) {
        grid->zero_injection[bus] = percent(dice, zero_injection);
        grid->open_site[bus] = percent(dice, open_sites);
    }
    draw_units(dice, grid);
}

bool has_circuits(const struct grid_case *grid)
{
    for (unsigned a = 1; a <= grid->buses; a++)
        for (unsigned b = a + 1; b <= grid->buses; b++)
            if (grid->circuits[a][b] >= LEAST_SAID_CIRCUITS)
                return true;
    return false;
}

void write_case_text(const struct grid_case *grid, struct text *text)
{
    text->length = 0;
    add_line(text, "grid\t%zu\n", grid->buses);
    for (unsigned bus = 1; bus <= grid->buses; bus++)
        add_line(text, "bus\t%u\t%c\t%c\n", bus, grid->zero_injection[bus] ? 'Z' : 'I',
                 grid->open_site[bus] ? 'Y' : 'N');
    for (unsigned a = 1; a <= grid->buses; a++)
        for (unsigned b = a + 1; b <= grid->buses; b++)
            if (grid->circuits[a][b] >= LEAST_SAID_CIRCUITS)
                add_line(text, "line\t%u\t%u\t%u\n", a, b, (unsigned)grid->circuits[a][b]);
            else if (grid->joined[a][b])
                add_line(text, "line\t%u\t%u\n", a, b);
    for (unsigned bus = 1; bus <= grid->buses; bus++)
        if (grid->unit[bus])
            add_line(text, "pmu\t%u\n", bus);
    add_line(text, "end\n");
}

static size_t count_additions(const struct grid_case *grid, size_t budget)
{
    size_t sites = 0, additions = 1, of_this_size = 1;
    for (unsigned bus = 1; bus <= grid->buses; bus++)
        sites += grid->open_site[bus] && !grid->unit[bus];
    for (size_t size = 1; size <= budget && size <= sites; size++) {
        of_this_size = of_this_size * (sites - size + 1) / size;
        additions += of_this_size;
    }
    return additions;
}

void shorten_search(struct dice *dice, struct grid_case *grid, size_t budget)
{
    size_t most = percent(dice, 1) ? 30000 : 3000;
    if (budget > MOST_BUDGET)
        budget = MOST_BUDGET;
    while (count_additions(grid, budget) > most)
        grid->open_site[between(dice, 1, grid->buses)] = false;
}
