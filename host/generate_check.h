/* Checks by chance: a machine's listing, codes for it, of ours or of another encoder, and a cover in them, ours, rewritten, changed or
   damaged. */
#ifndef GENERATE_CHECK_H
#define GENERATE_CHECK_H

#include "generate.h"

struct check_text {
    size_t length;
    uint8_t bytes[GENERATE_BYTES];
};

/* Where the codes come from. */
enum check_codes {
    CHECK_OWN,      /* the bit rule's */
    CHECK_LEAST,    /* the fewest bits' */
    CHECK_TURNED,   /* the bit rule's, its columns in another order, some of them complemented or doubled */
    CHECK_ONE_HOT,  /* a bit for each state */
    CHECK_COUNTING, /* the states' numbers, or others, in binary */
    CHECK_WIDER,    /* one-hot and columns of chance, often up to 64 */
    CHECK_ANY,      /* of chance */
    CHECK_NO_BITS,
    CHECK_FAMILIES
};

/* The families of codes come first, then the kinds of damage: of the listing, of the codes, of the cover. */
#define CHECK_DAMAGES 36
#define CHECK_KINDS (CHECK_FAMILIES + CHECK_DAMAGES)

struct generated_check {
    unsigned kind;
    enum check_codes family;
    bool own_rows; /* the cover is ours, row by row, in these codes */
    struct generated listing;
    struct check_text codes;
    struct check_text cover;
};

const char *check_kind_name(unsigned kind);

/* The check of this number in the run of this seed. One that is not spoilt has good texts, and a cover that agrees if the codes meet
   every pair and group; a spoilt one has changes in its codes or its cover, or is damaged. */
void generate_check(uint64_t seed, uint64_t number, bool spoilt, struct generated_check *check);

/* A cover before it is written (generate_check.c): its rows, and what its head says of them. */
#define CHECK_DRAFT_ROWS 320
#define CHECK_DRAFT_PLACES 112

struct check_cover {
    unsigned inputs;
    unsigned outputs;
    bool typed;
    unsigned rows;
    unsigned said;
    char input[CHECK_DRAFT_ROWS][CHECK_DRAFT_PLACES];
    char output[CHECK_DRAFT_ROWS][CHECK_DRAFT_PLACES];
};

void check_double_row(struct chance *chance, struct check_cover *cover, unsigned row);

/* One damage of a number below CHECK_DAMAGES (damage_check.c): of a cover before it is written, or of the texts; each is called once with
   what it is for, and does nothing where it is for the other. */
const char *check_damage_name(unsigned damage);
unsigned check_draw_damage(struct chance *chance);
void check_damage_cover(struct chance *chance, unsigned damage, struct check_cover *cover);
void check_damage_texts(struct chance *chance, unsigned damage, struct generated_check *check);

#endif
