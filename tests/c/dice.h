/* Numbers drawn from a seed, the same on every machine. */
#ifndef DICE_H
#define DICE_H

#include <stdbool.h>
#include <stddef.h>
#include <stdint.h>

struct dice {
    uint64_t state;
};

/* Dice for one index of a run: what is drawn for it does not hang on the indexes before it. */
struct dice dice_for(uint64_t seed, uint64_t index);
uint64_t draw(struct dice *dice);
/* From 0 to `sides` - 1. */
size_t below(struct dice *dice, size_t sides);
/* From `low` to `high`, both included. */
size_t between(struct dice *dice, size_t low, size_t high);
bool percent(struct dice *dice, size_t chance);

#endif
