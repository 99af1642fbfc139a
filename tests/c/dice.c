#include "dice.h"

/* The generator splitmix64. */
uint64_t draw(struct dice *dice)
{
    dice->state += 0x9e3779b97f4a7c15u;
    uint64_t z = dice->state;
    z = (z ^ (z >> 30)) * 0xbf58476d1ce4e5b9u;
    z = (z ^ (z >> 27)) * 0x94d049bb133111ebu;
    return z ^ (z >> 31);
}

struct dice dice_for(uint64_t seed, uint64_t index)
{
    struct dice dice = {seed};
    dice.state = draw(&dice) ^ index;
    dice.state = draw(&dice);
    return dice;
}

size_t below(struct dice *dice, size_t sides)
{
    return (size_t)(draw(dice) % sides);
}

size_t between(struct dice *dice, size_t low, size_t high)
{
    return low + below(dice, high - low + 1);
}

bool percent(struct dice *dice, size_t chance)
{
    return below(dice, 100) < chance;
}
