/* A seeded source of numbers (splitmix64): the same seed gives the same numbers on every machine. C leaves open which of two draws in one expression comes
   first, and compilers differ: where it matters each stands in a statement of its own. */
#ifndef CHANCE_H
#define CHANCE_H

#include "base.h"

struct chance {
    uint64_t state;
};

/* The source for the thing of this number in the run of this seed: each thing can be made again by itself. */
struct chance chance_of(uint64_t seed, uint64_t number);

uint64_t chance_next(struct chance *chance);

/* A number from 0 to limit - 1; limit is at least 1. */
unsigned chance_below(struct chance *chance, unsigned limit);

/* A number from low to high, both included. */
unsigned chance_from(struct chance *chance, unsigned low, unsigned high);

/* True `part` times out of `whole`. */
bool chance_part(struct chance *chance, unsigned part, unsigned whole);

#endif
