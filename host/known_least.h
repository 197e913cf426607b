/* Answers that 02's request 11 and the readings give in words for the fewest bits, case by case, for any encoder's entries. */
#ifndef KNOWN_LEAST_H
#define KNOWN_LEAST_H

#include "known.h"

struct least_entries {
    const char *name;
    entry *least;
    entry *cover;
};

/* Prints what fails, with the encoder's name before it, and answers how much failed; adds what was checked to *checks. */
unsigned known_least_run(const struct least_entries *encoder, unsigned *checks);

/* The machines that take a search longest, as far as they are known: 6 states and 32 requirements, no code of 5 bits or one that comes late.
   Each name, listing and the first bytes of the report, or NULL where it is refused 16. */
#define KNOWN_LEAST_LONG 5
struct known_least_long {
    const char *name;
    const char *listing;
    const char *least;
};
extern const struct known_least_long known_least_long[KNOWN_LEAST_LONG];

#endif
