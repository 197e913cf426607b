/* The listings of the benchmark: a fixed table of plans, each drawn from the seed; and those of its checks, some with codes and a cover. */
#ifndef BENCH_LISTINGS_H
#define BENCH_LISTINGS_H

#include "base.h"

/* Groups of any size from 2 to n - 1; all different groups of two states; different groups of half the states. */
enum bench_groups { BENCH_RANDOM, BENCH_PAIRS, BENCH_HALVES };

struct bench_plan {
    enum bench_groups groups;
    unsigned states;
    unsigned rows;
    unsigned dichotomies;
};

#define BENCH_BYTES 65536

struct bench_listing {
    size_t length;
    uint8_t bytes[BENCH_BYTES];
};

extern const struct bench_plan bench_plans[];
extern const unsigned bench_plans_number;

/* The listing of plan `at` in the run of this seed. Its width is 64, so that no code is refused as too wide. */
void bench_draw(uint64_t seed, unsigned at, struct bench_listing *listing);

/* What is checked: 64 states, 128 rows, 16 inputs and 32 outputs. A controller that looks at one input in each state; and the hardest that is
   known: rows that hold in every state and care for one input each, or for one and the last one, so that no input is decided before its last digit. */
enum bench_check_kind { BENCH_CONTROLLER, BENCH_ONE_INPUT, BENCH_TWO_INPUTS, BENCH_CHECK_KINDS };

void bench_draw_check(enum bench_check_kind kind, struct bench_listing *listing);

/* One-hot codes for it, and a cover in them of 256 rows: of each row of a hard listing the outputs and the next code apart. The last of them holds at
   every input, as the next code does, so that the two are not alike row by row; with `wrong`, it is wrong in the last state at the last input alone. */
void bench_draw_codes(struct bench_listing *codes);
void bench_draw_cover(enum bench_check_kind kind, bool wrong, struct bench_listing *cover);

#endif
