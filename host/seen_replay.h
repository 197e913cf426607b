/* What a run of the comparison has seen of recorded runs: how they end, and what their steps are like. */
#ifndef SEEN_REPLAY_H
#define SEEN_REPLAY_H

#include "base.h"

/* Notes a listing and a run, and the answer given room with its text. Answers how many steps were printed. */
uint64_t seen_replay(const uint8_t *listing, size_t listing_length, const uint8_t *run, size_t run_length, int64_t answer,
                     const uint8_t *text);

void seen_replay_print(void);
bool seen_replay_each(void);

#endif
