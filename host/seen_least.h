/* What a run of the comparison of the fewest bits has seen: answers of every width and kind of machine, and refusals by what they are for. */
#ifndef SEEN_LEAST_H
#define SEEN_LEAST_H

#include "base.h"

/* A listing and the two answers, as they are with room enough; the report is the text of the first of them. */
void seen_least(const uint8_t *listing, size_t length, int64_t least, int64_t cover, const uint8_t *report);
void seen_least_print(void);

/* Whether each sort was seen often enough for a full run; prints those that were not. */
bool seen_least_each(void);

#endif
