/* Small machines by chance, for the fewest bits: of 1 to 6 states, and a few larger, with requirement counts around 32 and with codes of every
   width that there is, and of none. */
#ifndef GENERATE_LEAST_H
#define GENERATE_LEAST_H

#include "generate.h"

/* The families of good listings, which are read but for those of "large", a few that clash and a few without an `OU` line; their numbers stand in `kind`, and LEAST_DAMAGED for a damaged one of any family. */
enum generate_least_family {
    LEAST_ROWS,
    LEAST_DICHOTOMIES,
    LEAST_FULL,
    LEAST_HIDDEN,
    LEAST_EDGE,
    LEAST_BUT_ONE,
    LEAST_FLOW,
    LEAST_FLOW_FULL,
    LEAST_FLOW_CROWD,
    LEAST_LARGE,
    LEAST_DAMAGED
};
#define LEAST_FAMILIES LEAST_DAMAGED
#define LEAST_KINDS (LEAST_FAMILIES + 1)

const char *generate_least_name(unsigned kind);

/* A listing of one family. */
void generate_least_good(struct chance *chance, enum generate_least_family family, struct generated *listing);

/* The listing of this number in the run of this seed. */
void generate_least(uint64_t seed, uint64_t number, bool damaged, struct generated *listing);

#endif
