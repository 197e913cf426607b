/* KISS2 texts made by chance from a seed: good ones of every size, and damaged ones of every kind. */
#ifndef GENERATE_KISS_H
#define GENERATE_KISS_H

#include "chance.h"

/* Longer than any text may be (65,536), so that texts that are too long are made too. */
#define KISS_BYTES 70000

struct kiss_text {
    unsigned kind;   /* below KISS_KINDS: the family of a good one, the first damage of a damaged one */
    unsigned states; /* that the lines and `.r` name, before any damage; so too the next two */
    unsigned inputs;
    unsigned outputs;
    size_t length;
    uint8_t bytes[KISS_BYTES];
};

/* The families of good texts come first, then the kinds of damage. Most good ones are read; "clash" and "wrong counts" mostly are
   not, and those with a 129th row or a 65th state are not. */
enum kiss_family {
    KISS_TINY,
    KISS_SMALL,
    KISS_MIDDLE,
    KISS_LARGE,
    KISS_WIDE,
    KISS_MANY_ROWS,
    KISS_MANY_STATES,
    KISS_JOINED,
    KISS_FULL,
    KISS_STARS,
    KISS_CLASH,
    KISS_WRONG_COUNTS,
    KISS_FAMILIES
};
#define KISS_DAMAGES 39
#define KISS_KINDS (KISS_FAMILIES + KISS_DAMAGES)

const char *kiss_kind_name(unsigned kind);

/* The text of this number in the run of this seed. */
void kiss_generate(uint64_t seed, uint64_t number, bool damaged, struct kiss_text *text);

/* A good text of one family (generate_kiss.c). */
void kiss_good(struct chance *chance, enum kiss_family family, struct kiss_text *text);

/* Writing (generate_kiss.c): what goes beyond KISS_BYTES is left out. */
void kiss_put(struct kiss_text *text, const void *bytes, size_t length);
void kiss_put_word(struct kiss_text *text, const char *word);
void kiss_put_number(struct kiss_text *text, unsigned number);

/* One damage of this number, below KISS_DAMAGES (damage_kiss.c). */
const char *kiss_damage_name(unsigned damage);
unsigned kiss_draw_damage(struct chance *chance);
void kiss_damage(struct chance *chance, unsigned damage, struct kiss_text *text);

#endif
