/* Texts drawn from dice: valid and damaged case texts, step texts and inputs of the planning program. */
#ifndef TEXTS_H
#define TEXTS_H

#include "dice.h"
#include "document01.h"

enum { TEXT_ROOM = 24000 };

/* What does not fit is left out. */
struct text {
    size_t length;
    uint8_t bytes[TEXT_ROOM];
};

void add_line(struct text *text, const char *format, ...);

/* texts_cases.c: a valid case of any size and shape, and its text. */
void draw_case(struct dice *dice, struct grid_case *grid);
/* Whether a line has several circuits. */
bool has_circuits(const struct grid_case *grid);
void write_case_text(const struct grid_case *grid, struct text *text);
/* Bars sites until the search for the fewest has few additions to try. */
void shorten_search(struct dice *dice, struct grid_case *grid, size_t budget);

/* texts_steps.c: a step text for a case: allowed steps, wrong ones, too many, or none. Each record has a good form. */
void draw_step_text(struct dice *dice, const struct grid_case *grid, struct text *text);

/* texts_damage.c: one to three damages of any kind. The text may still be valid. */
void damage_text(struct dice *dice, struct text *text, size_t byte_limit);

/* texts_plan.c: a first line for the planning program, and the budget that it says; 0 if it says none. */
void draw_plan_line(struct dice *dice, struct text *text, size_t *budget);

#endif
