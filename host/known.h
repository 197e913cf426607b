/* The known answers of 01 that are whole listings, run through any encoder's entries. */
#ifndef KNOWN_H
#define KNOWN_H

#include "base.h"

typedef int64_t entry(const uint8_t *listing, size_t listing_length, uint8_t *out, size_t out_length);
typedef int64_t part_entry(const uint8_t *listing, size_t listing_length, size_t from, uint8_t *out, size_t out_length);

struct entries {
    const char *name;
    entry *report;
    entry *cover;
    entry *widths;
    part_entry *report_part;
    part_entry *cover_part;
};

/* Prints what fails, with the encoder's name before it, and answers how much failed; adds what was checked to *checks. */
unsigned known_run(const struct entries *encoder, unsigned *checks);

#endif
