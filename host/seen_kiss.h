/* What a run of the comparison has seen of KISS2 texts: the sorts of those that are read, and of the refusals. */
#ifndef SEEN_KISS_H
#define SEEN_KISS_H

#include "base.h"

/* Notes a text and the answer of the listing's entry, given room. */
void seen_kiss(const uint8_t *text, size_t length, int64_t answer);

void seen_kiss_print(void);
bool seen_kiss_each(void);

#endif
