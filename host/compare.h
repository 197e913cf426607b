/* One call of the library against the second encoder's answer: the answers, every byte of the lent buffer and around it, and the
   texts that were given. */
#ifndef COMPARE_H
#define COMPARE_H

#include "chance.h"
#include "known.h"
#include "second.h"

/* The refusal numbers that are counted apart, 0 being an answer: up to this one. */
#define COMPARE_NUMBERS 18

struct compare_tally {
    const char *name;
    uint64_t seen[COMPARE_NUMBERS + 1]; /* by refusal number, any other last */
    uint64_t second_time;
    uint64_t library_time;
};

/* No more texts are given to one call (a listing, codes and a cover), and none is longer (a run). */
#define COMPARE_TEXTS 3
#define COMPARE_GIVEN 210000

struct compare_text {
    uint8_t *bytes; /* NULL where there is no such text */
    size_t length;
};

/* What is given: the texts, which nobody may change, and what to call them when a difference is printed. An entry is called with the first
   of them; one that takes more finds the others by itself. */
struct compare_given {
    struct compare_text texts[COMPARE_TEXTS];
    const char *kind;
};

/* No text is longer that any entry answers. */
#define COMPARE_TEXT (SECOND_TEXT > SECOND_REPLAY_TEXT ? SECOND_TEXT : SECOND_REPLAY_TEXT)

/* The second encoder's whole answer of the last call of compare_entry. */
extern uint8_t compare_ample[COMPARE_TEXT];

/* This process's own time in nanoseconds. */
uint64_t compare_now(void);

/* Runs both with a buffer of a length drawn by chance, and answers whether they agree in everything; prints the difference if not.
   *answered is what the second encoder answers with room enough. */
bool compare_entry(struct chance *chance, struct compare_tally *tally, entry *library, entry *second,
                   const struct compare_given *given, int64_t *answered);

/* The same with a buffer of this length, for entries of which an answer hangs on it otherwise than that it fits or does not. *answered is
   what the second encoder answers. */
bool compare_lent(struct chance *chance, struct compare_tally *tally, entry *library, entry *second,
                  const struct compare_given *given, size_t length, int64_t *answered);

void compare_print(const struct compare_tally *tally);

#endif
