/* Answers for recorded runs that 02's request 08 and the readings give in words, case by case, for any encoder's entries. */
#ifndef KNOWN_REPLAY_H
#define KNOWN_REPLAY_H

#include "base.h"

typedef int64_t replay_entry(const uint8_t *listing, size_t listing_length, const uint8_t *run, size_t run_length, uint8_t *out,
                             size_t out_length);
typedef int64_t replay_part_entry(const uint8_t *listing, size_t listing_length, const uint8_t *run, size_t run_length, size_t from,
                                  uint8_t *out, size_t out_length);

struct replay_entries {
    const char *name;
    replay_entry *replay;
    replay_part_entry *part;
};

/* Prints what fails, with the encoder's name before it, and answers how much failed; adds what was checked to *checks. */
unsigned known_replay_run(const struct replay_entries *encoder, unsigned *checks);

#endif
