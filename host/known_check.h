/* Answers that 02's request 10 and the readings give in words for codes and covers from elsewhere, case by case, for any encoder's entry. */
#ifndef KNOWN_CHECK_H
#define KNOWN_CHECK_H

#include "base.h"

typedef int64_t check_entry(const uint8_t *listing, size_t listing_length, const uint8_t *codes, size_t codes_length,
                            const uint8_t *cover, size_t cover_length, uint8_t *out, size_t out_length);

/* Prints what fails, with the encoder's name before it, and answers how much failed; adds what was checked to *checks. */
unsigned known_check_run(const char *name, check_entry *check, unsigned *checks);

#endif
