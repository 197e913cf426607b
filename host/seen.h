/* What a run of the comparison has seen of output dashes, of rows that a cover leaves out or keeps, of wrong head lines, of Moore
   machines, and of flow tables. */
#ifndef SEEN_H
#define SEEN_H

#include "base.h"

/* A sort of things, and how often a full run must see it. */
struct seen_sort {
    const char *name;
    unsigned least;
    uint64_t seen;
};

/* Prints the sorts of a list from one on and before another. */
void seen_print_sorts(const char *what, const struct seen_sort *sorts, unsigned from, unsigned to);

/* Whether each sort of a list was seen as often as a full run must see it; prints those that were not. */
bool seen_enough(const struct seen_sort *sorts, unsigned number);

/* Notes a listing that has a cover and is no Moore machine's. */
void seen_cover(const uint8_t *listing, size_t length);

/* Notes the answer of a listing, if it is a refusal for what stands behind the four numbers of its head line. */
void seen_head(const uint8_t *listing, size_t length, int64_t answer);

void seen_print(void);
bool seen_each(void);

/* Notes a Moore machine's listing that has a cover, or any listing that is refused (seen_moore.c). */
void seen_moore(const uint8_t *listing, size_t length, bool has_cover);

void seen_moore_print(void);
bool seen_moore_each(void);

/* Notes a flow table that has a report, and what its cover is answered; or any listing that is refused (seen_flow.c). */
void seen_flow(const uint8_t *listing, size_t length, int64_t report, int64_t cover);

void seen_flow_print(void);
bool seen_flow_each(void);

#endif
