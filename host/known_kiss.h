/* Answers for KISS2 texts that 02's request 01 and the readings give in words, case by case, for any encoder's entries. */
#ifndef KNOWN_KISS_H
#define KNOWN_KISS_H

#include "known.h"

struct kiss_entries {
    const char *name;
    entry *report;
    entry *cover;
    entry *listing;
    entry *names;
};

/* Prints what fails, with the encoder's name before it, and answers how much failed; adds what was checked to *checks. */
unsigned known_kiss_run(const struct kiss_entries *encoder, unsigned *checks);

#endif
