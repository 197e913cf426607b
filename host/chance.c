/* The seeded source of numbers (splitmix64), in unsigned 64-bit arithmetic only. */
#include "chance.h"

uint64_t chance_next(struct chance *chance)
{
    chance->state += 0x9E3779B97F4A7C15u;
    uint64_t z = chance->state;
    z = (z ^ (z >> 30)) * 0xBF58476D1CE4E5B9u;
    z = (z ^ (z >> 27)) * 0x94D049BB133111EBu;
    return z ^ (z >> 31);
}

struct chance chance_of(uint64_t seed, uint64_t number)
{
    struct chance chance = {seed};
    chance.state = chance_next(&chance) ^ number;
    chance.state = chance_next(&chance);
    return chance;
}

unsigned chance_below(struct chance *chance, unsigned limit)
{
    return (unsigned)((chance_next(chance) >> 32) % limit);
}

unsigned chance_from(struct chance *chance, unsigned low, unsigned high)
{
    return low + chance_below(chance, high - low + 1);
}

bool chance_part(struct chance *chance, unsigned part, unsigned whole)
{
    return chance_below(chance, whole) < part;
}
