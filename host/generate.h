/* Listings made by chance from a seed: good ones of every size, and damaged ones of every kind. */
#ifndef GENERATE_H
#define GENERATE_H

#include "chance.h"

/* Longer than any listing may be (65,536), so that listings that are too long are made too. */
#define GENERATE_BYTES 70000

struct generated {
    unsigned kind;   /* below GENERATE_KINDS: the family of a good one, the first damage of a damaged one */
    unsigned states; /* of the machine that was drawn, before any damage; so too the next four */
    unsigned inputs;
    unsigned outputs;
    bool moore;
    bool flow;
    size_t length;
    uint8_t bytes[GENERATE_BYTES];
};

/* The families of good listings come first, then the kinds of damage. */
#define GENERATE_FAMILIES 15
#define GENERATE_DAMAGES 65
#define GENERATE_KINDS (GENERATE_FAMILIES + GENERATE_DAMAGES)

const char *generate_kind_name(unsigned kind);

/* The listing of this number in the run of this seed. */
void generate_listing(uint64_t seed, uint64_t number, bool damaged, struct generated *listing);

/* A good listing of one family (generate.c). Most are accepted; those of "clash" and "crowd" and the 129th row and 65th
   dichotomy of "many rows", "many dichotomies" and "flow crowd" are mostly not. */
enum generate_family {
    GENERATE_TINY,
    GENERATE_SMALL,
    GENERATE_MIDDLE,
    GENERATE_LARGE,
    GENERATE_WIDE,
    GENERATE_HUGE,
    GENERATE_MANY_ROWS,
    GENERATE_MANY_DICHOTOMIES,
    GENERATE_CROWD,
    GENERATE_EDGE,
    GENERATE_CLASH,
    GENERATE_NARROW,
    GENERATE_FLOW,
    GENERATE_FLOW_WIDE,
    GENERATE_FLOW_CROWD
};
void generate_good(struct chance *chance, enum generate_family family, struct generated *listing);

/* The same, of a Moore machine or of none; the last three families are flow tables, which are none. */
void generate_profile(struct chance *chance, enum generate_family family, bool moore, struct generated *listing);

/* A flow table (generate_flow.c), and what it is written with. */
void generate_flow(struct chance *chance, enum generate_family family, struct generated *listing);
void generate_put_text(struct generated *listing, const char *text);
void generate_put_number(struct generated *listing, unsigned number);

/* One damage of this number, below GENERATE_DAMAGES, to a listing (damage.c). */
const char *generate_damage_name(unsigned damage);
unsigned generate_draw_damage(struct chance *chance);
void generate_damage(struct chance *chance, unsigned damage, struct generated *listing);

#endif
