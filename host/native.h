/* The native encoder: 01's rule as a C programmer would ship it for speed, for host/bench to measure the library against. */
#ifndef NATIVE_H
#define NATIVE_H

#include "base.h"

typedef __UINT16_TYPE__ uint16_t;
typedef __INT32_TYPE__ int32_t;

/* 01's limits, with the 64 states of 02's request 09. A set of states fits into 64 digits. */
#define NATIVE_STATES 64
#define NATIVE_INPUTS 16
#define NATIVE_OUTPUTS 32
#define NATIVE_ROWS 128
#define NATIVE_DICHOTOMIES 64
#define NATIVE_COLUMNS 16
#define NATIVE_BYTES 65536
#define NATIVE_REQUIREMENTS 10016

/* The most members of all requirements: 2,016 pairs, 128 groups of 32 states with 32 outside, 64 dichotomies of 64 states. */
#define NATIVE_MEMBERS (2016 * 2 + 128 * 32 * 33 + 64 * 64)

#define NATIVE_DASH 255

/* All of so many states, at least one. */
static inline uint64_t native_all_states(uint32_t states)
{
    return ~(uint64_t)0 >> (64 - states);
}

/* The rows by columns, so that the scan for a conflict runs along them; what it needs is 32 digits wide, four rows to a step. */
struct native_machine {
    uint32_t states;
    uint32_t inputs;
    uint32_t outputs;
    uint32_t width;
    uint32_t rows;
    uint32_t dichotomies;
    bool moore;    /* the head line is `MO` */
    uint64_t told; /* the states that have had their `OU` line */
    uint32_t flow_lines; /* the `FT` lines, and how many columns they have */
    uint32_t columns;
    uint8_t flow[NATIVE_STATES][NATIVE_COLUMNS]; /* a state, or NATIVE_DASH */
    uint64_t group[NATIVE_ROWS];
    uint32_t low[NATIVE_ROWS];    /* the group's first 32 states again, or nobody where the row names no next state */
    uint32_t high[NATIVE_ROWS];   /* and the others */
    uint32_t next[NATIVE_ROWS];   /* of a row that names one */
    uint32_t asks[NATIVE_ROWS];   /* the places that ask 0, and those that ask 1 sixteen digits higher */
    uint32_t refuse[NATIVE_ROWS]; /* the same with the halves changed over */
    uint32_t line[NATIVE_ROWS];
    uint64_t first[NATIVE_DICHOTOMIES];
    uint64_t second[NATIVE_DICHOTOMIES];
};

/* A requirement: its members (none once it is met), its second block, and the members that must change for first 0, second
   1. A card's place is the requirement's number. */
struct native_card {
    uint64_t all;
    uint64_t wrong;
    uint64_t second;
};

struct native_code {
    uint32_t states;
    uint32_t asked;
    uint32_t bits;
    uint64_t bit[NATIVE_STATES];
    uint64_t passes;
    uint64_t looks;
    uint32_t live; /* how many cards are still unmet, and which, ascending */
    uint16_t unmet[NATIVE_REQUIREMENTS];
    uint8_t by[NATIVE_REQUIREMENTS]; /* of a card that is met, the bit that met it */
    struct native_card card[NATIVE_REQUIREMENTS];
    uint32_t start[NATIVE_STATES + 1]; /* where each state's part of `of` begins */
    uint32_t number[NATIVE_STATES];    /* how many stand in it */
    uint16_t of[NATIVE_MEMBERS];       /* the live cards that have a state, state by state */
};

/* Each answers 0, or number * 100000 + line of the refusal. */
int64_t native_read(const uint8_t *listing, size_t length, struct native_machine *machine);
int64_t native_encode(const struct native_machine *machine, struct native_code *code);

/* 01's C entry: the length written, or minus (number * 100000 + line). */
int64_t native_report(const uint8_t *listing, size_t listing_length, uint8_t *out, size_t out_length);

#endif
