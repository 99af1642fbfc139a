/* Drawn step texts for a case. */
#include "texts.h"

enum { MOST_DRAWN_STEPS = 1400 };

struct drawn_steps {
    size_t count;
    struct step steps[MOST_DRAWN_STEPS];
};

static struct step draw_step(struct dice *dice, size_t highest_bus)
{
    struct step step;
    step.bus = (unsigned)between(dice, 1, highest_bus);
    step.reason = "ONZ"[below(dice, 3)];
    step.by = (unsigned)between(dice, 1, highest_bus);
    return step;
}

/* A reason that holds for the bus, looked for from a drawn place on. */
static bool draw_reason(struct dice *dice, const struct grid_case *grid, const struct bus_set *observed,
                        struct step *step)
{
    size_t first_reason = below(dice, 3), first_by = below(dice, grid->buses);
    for (size_t i = 0; i < 3; i++) {
        step->reason = "ONZ"[(first_reason + i) % 3];
        for (size_t j = 0; j < grid->buses; j++) {
            step->by = (unsigned)((first_by + j) % grid->buses) + 1;
            if (reason_holds(grid, observed, *step))
                return true;
        }
    }
    return false;
}

static bool draw_allowed_step(struct dice *dice, const struct grid_case *grid, const struct bus_set *observed,
                              struct step *step)
{
    size_t first_bus = below(dice, grid->buses);
    for (size_t i = 0; i < grid->buses; i++) {
        step->bus = (unsigned)((first_bus + i) % grid->buses) + 1;
        if (!observed->has[step->bus] && draw_reason(dice, grid, observed, step))
            return true;
    }
    return false;
}

static void draw_allowed_steps(struct dice *dice, const struct grid_case *grid, struct drawn_steps *drawn)
{
    struct bus_set observed = {{false}};
    size_t most = percent(dice, 70) ? MOST_BUSES : below(dice, grid->buses + 1);
    struct step step;
    while (drawn->count < most && draw_allowed_step(dice, grid, &observed, &step)) {
        observed.has[step.bus] = true;
        drawn->steps[drawn->count++] = step;
    }
}

static void draw_chance_steps(struct dice *dice, const struct grid_case *grid, struct drawn_steps *drawn)
{
    size_t highest_bus = percent(dice, 80) ? grid->buses : MOST_BUSES;
    for (size_t more = below(dice, 10); more > 0; more--)
        drawn->steps[drawn->count++] = draw_step(dice, highest_bus);
}

/* Steps up to the limit of 1,024, or over it. */
static void draw_many_steps(struct dice *dice, const struct grid_case *grid, struct drawn_steps *drawn)
{
    static const size_t counts[] = {1023, 1024, 1025, 1026, 1300, MOST_DRAWN_STEPS};
    size_t count = counts[below(dice, sizeof counts / sizeof *counts)];
    size_t highest_bus = percent(dice, 50) ? grid->buses : MOST_BUSES;
    while (drawn->count < count)
        drawn->steps[drawn->count++] = draw_step(dice, highest_bus);
}

/* Makes one step of a list wrong, or another way of being right. */
static void spoil_steps(struct dice *dice, const struct grid_case *grid, struct drawn_steps *drawn)
{
    if (drawn->count == 0)
        return;
    size_t i = below(dice, drawn->count), j = below(dice, drawn->count);
    struct step *step = &drawn->steps[i], kept = *step;
    switch (below(dice, 7)) {
    case 0:
        *step = draw_step(dice, grid->buses);
        return;
    case 1:
        step->by = (unsigned)between(dice, 1, grid->buses);
        return;
    case 2:
        step->reason = "ONZ"[below(dice, 3)];
        return;
    case 3:
        *step = drawn->steps[j];
        drawn->steps[j] = kept;
        return;
    case 4:
        drawn->steps[j] = kept;
        return;
    case 5:
        step->bus = (unsigned)between(dice, grid->buses, MOST_BUSES);
        return;
    default:
        step->by = (unsigned)between(dice, grid->buses, MOST_BUSES);
    }
}

static void draw_steps(struct dice *dice, const struct grid_case *grid, struct drawn_steps *drawn)
{
    size_t kind = below(dice, 100);
    drawn->count = 0;
    if (kind < 30)
        drawn->count = derive(grid, drawn->steps);
    else if (kind < 90)
        draw_allowed_steps(dice, grid, drawn);
    else if (kind < 97)
        draw_chance_steps(dice, grid, drawn);
    if (percent(dice, 4))
        draw_many_steps(dice, grid, drawn);
    if (percent(dice, 45))
        spoil_steps(dice, grid, drawn);
}

static void write_step_text(const struct drawn_steps *drawn, struct text *text)
{
    text->length = 0;
    for (size_t i = 0; i < drawn->count; i++) {
        const struct step *step = &drawn->steps[i];
        if (step->reason == 'O')
            add_line(text, "step\t%u\tO\n", step->bus);
        else
            add_line(text, "step\t%u\t%c\t%u\n", step->bus, step->reason, step->by);
    }
    add_line(text, "end\n");
}

void draw_step_text(struct dice *dice, const struct grid_case *grid, struct text *text)
{
    static struct drawn_steps drawn;
    draw_steps(dice, grid, &drawn);
    write_step_text(&drawn, text);
}
