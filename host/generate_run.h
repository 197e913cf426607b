/* Recorded runs by chance, each with its listing: runs that end in every way, over listings that are answered and over some that are not. */
#ifndef GENERATE_RUN_H
#define GENERATE_RUN_H

#include "generate.h"

/* More than `SS` and 10,003 lines of 16 inputs have, and something behind them. */
#define RUN_BYTES 210000

/* Good runs come first, then those with a fault that is named. */
enum run_kind {
    RUN_WALK,    /* by rows that name a next state, mostly; to the end of the text */
    RUN_CHANCE,  /* any vectors */
    RUN_STUCK,   /* a walk, and a vector for which no row names a next state if there is one, and something behind it */
    RUN_START,   /* `SS` alone */
    RUN_LONG,    /* 9,999 and 10,000 inputs */
    RUN_OVER,    /* 10,001 and more */
    RUN_REFUSED, /* over a listing that is refused, most often */
    RUN_NO_BYTES,
    RUN_START_MARK,
    RUN_START_NUMBER,
    RUN_START_RANGE,
    RUN_START_FIELDS,
    RUN_START_NO_LF,
    RUN_MARK,
    RUN_CHARACTER,
    RUN_SHORT,
    RUN_LONGER,
    RUN_SPACE,
    RUN_SECOND_START,
    RUN_BLANK,
    RUN_NO_LF,
    RUN_LINE_END,
    RUN_ANY_BYTE,
    RUN_OVER_BAD, /* the 10,001st input is malformed */
    RUN_KINDS
};

struct run_text {
    enum run_kind kind;
    struct generated listing;
    size_t length;
    uint8_t bytes[RUN_BYTES];
};

const char *run_kind_name(enum run_kind kind);

/* The listing and the run of this number in the run of this seed. */
void run_generate(uint64_t seed, uint64_t number, struct run_text *run);

/* A listing of which every state has, for every vector, a row that names a next state, but for some rows now and then. */
void run_complete(struct chance *chance, bool small, struct generated *listing);

#endif
