/* The second encoder: written from 01, 02 and the readings alone, the plain way, to check the proved one against. */
#ifndef SECOND_H
#define SECOND_H

#include "base.h"

/* The limits of 01, "The listing"; 02, request 09: "Raise states ... and width from 32 to 64." */
#define SECOND_STATES 64
#define SECOND_WIDTH SECOND_STATES
#define SECOND_INPUTS 16
#define SECOND_OUTPUTS 32
#define SECOND_ROWS 128
#define SECOND_DICHOTOMIES 64
#define SECOND_BYTES 65536

/* 02, request 05: a flow table has "16 columns" at most, and as many states as any machine (request 09). */
#define SECOND_COLUMNS 16

/* 02, request 09: "Requirements may reach 2,016 + 7,936 + 64 = 10,016." */
#define SECOND_REQUIREMENTS \
    (SECOND_STATES * (SECOND_STATES - 1) / 2 + SECOND_ROWS * (SECOND_STATES - 2) + SECOND_DICHOTOMIES)

/* 02, request 11: "For up to 6 states and at most 32 requirements, ... up to 5 bits." */
#define SECOND_LEAST_STATES 6
#define SECOND_LEAST_REQUIREMENTS 32
#define SECOND_LEAST_BITS 5

/* 01, "Looks": the trial record takes a list of at most 256. */
#define SECOND_TRIAL_REQUIREMENTS 256

/* 02, request 13: the cover of a Moore machine has "one row for each state" more than the listing. */
#define SECOND_COVER_ROWS (SECOND_ROWS + SECOND_STATES)

/* No text that the encoder prints is longer: a BY line has at most 12 bytes, an UN line 9, an SC line 71, a cover row
   178, and the other lines together far fewer than 256. */
#define SECOND_TEXT (SECOND_REQUIREMENTS * 12 + SECOND_STATES * 71 + SECOND_COVER_ROWS * 178 + 256)

/* 02, request 08: "the 10,001st `IN` is 2". A step's line has at most 104 bytes: a state of two digits, a code of 64 bits and 32 outputs;
   the refusal behind the last of them has 11. */
#define SECOND_STEPS 10000
#define SECOND_REPLAY_TEXT (SECOND_STEPS * 104 + 11)

/* 01, "Refusal numbers", 12 of 02's request 01, 13 of its request 05, 14 of its request 08, 15 of its request 10, 16 of its request 11 and 17
   of its request 13. SECOND_FINE stands for no refusal; 8 is unused (02, request 06). */
enum {
    SECOND_FINE = 0,
    SECOND_BAD_LINE = 1,
    SECOND_LIMIT = 2,
    SECOND_PLACE = 3,
    SECOND_EMPTY_GROUP = 4,
    SECOND_NEXT = 5,
    SECOND_CONFLICT = 6,
    SECOND_TOO_WIDE = 7,
    SECOND_UNMET = 9,
    SECOND_NO_ROOM = 10,
    SECOND_BAD_CALL = 11,
    SECOND_KISS = 12,     /* a name that is too long, or a number that disagrees with the lines, in a KISS2 text */
    SECOND_UNSTABLE = 13, /* a destination of a flow table that is not stable in its column */
    SECOND_STUCK = 14,    /* a step of a run that names no next state */
    SECOND_MISFIT = 15,   /* a cover whose `.i` or `.o` does not fit the listing and the codes */
    SECOND_NO_CODE = 16,  /* no code of 5 bits meets everything */
    SECOND_UNTOLD = 17    /* a state of a Moore machine without an `OU` line */
};

struct second_refusal {
    unsigned number;
    unsigned line;
};

/* A set of states is a mask: state j is the bit 2^j (reading 17). */
struct second_requirement {
    uint64_t first;
    uint64_t second;
};

#define SECOND_NO_STATE (-1)
#define SECOND_NO_BIT (-1)

struct second_row {
    unsigned line;
    uint8_t input[SECOND_INPUTS];
    uint64_t group;
    int next; /* a state, or SECOND_NO_STATE */
    uint8_t outputs[SECOND_OUTPUTS];
};

struct second_machine {
    unsigned states;
    unsigned inputs;
    unsigned outputs;
    unsigned width;
    unsigned keep; /* the fifth number: 1 has every row in the cover, 0 those that say something */
    bool moore;    /* the head line is `MO` */
    uint64_t told; /* the states that have had their `OU` line, and its outputs */
    uint8_t told_outputs[SECOND_STATES][SECOND_OUTPUTS];
    unsigned rows;       /* those of the listing */
    unsigned cover_rows; /* and, behind them, of a Moore machine that is read, the one added for each state */
    struct second_row row[SECOND_COVER_ROWS];
    unsigned flow_lines; /* the `FT` lines read, those of states 0 and on; 0 if the machine is no flow table */
    unsigned columns;    /* as many as the first of them has */
    int flow[SECOND_STATES][SECOND_COLUMNS]; /* where a state goes in a column, or SECOND_NO_STATE for a dash */
    unsigned dichotomies; /* those of `DI`, or of a flow table that is read */
    struct second_requirement dichotomy[SECOND_DICHOTOMIES];
};

struct second_requirements {
    unsigned number;       /* all of them */
    unsigned pairs_groups; /* those before the first DI */
    struct second_requirement list[SECOND_REQUIREMENTS];
};

/* bit[0] is the bit built first, printed leftmost; in it, the mask's bit j is the value of state j. */
struct second_code {
    unsigned bits;
    uint64_t bit[SECOND_WIDTH];
    uint64_t passes;
    uint64_t looks;
};

/* The entries, with the answers of 01's C host: the length written, or minus (number * 100000 + line). */
int64_t second_report(const uint8_t *listing, size_t listing_length, uint8_t *out, size_t out_length);
int64_t second_cover(const uint8_t *listing, size_t listing_length, uint8_t *out, size_t out_length);
int64_t second_widths(const uint8_t *listing, size_t listing_length, uint8_t *out, size_t out_length);

/* What is left of the report or the cover from byte `from` on: the whole lines of it that fit, as many as fit. Answers how
   many bytes; 0 where nothing is left; or the refusal, which is 10 only where not even the first line fits. */
int64_t second_report_part(const uint8_t *listing, size_t listing_length, size_t from, uint8_t *out, size_t out_length);
int64_t second_cover_part(const uint8_t *listing, size_t listing_length, size_t from, uint8_t *out, size_t out_length);

/* The report and the cover of a small machine in a code of the fewest bits (02, request 11). */
int64_t second_least(const uint8_t *listing, size_t listing_length, uint8_t *out, size_t out_length);
int64_t second_least_cover(const uint8_t *listing, size_t listing_length, uint8_t *out, size_t out_length);

/* The same of a KISS2 text (02, request 01); the listing that it is, as text, with the refusals of the report but 7; and the
   names of its states. */
int64_t second_kiss_report(const uint8_t *text, size_t text_length, uint8_t *out, size_t out_length);
int64_t second_kiss_cover(const uint8_t *text, size_t text_length, uint8_t *out, size_t out_length);
int64_t second_kiss_listing(const uint8_t *text, size_t text_length, uint8_t *out, size_t out_length);
int64_t second_kiss_names(const uint8_t *text, size_t text_length, uint8_t *out, size_t out_length);

/* The replay of a recorded run over a listing (02, request 08), whole and in parts: a refusal of the listing is answered as above, and one
   of the run is the last line of the text. */
int64_t second_replay(const uint8_t *listing, size_t listing_length, const uint8_t *run, size_t run_length, uint8_t *out,
                      size_t out_length);
int64_t second_replay_part(const uint8_t *listing, size_t listing_length, const uint8_t *run, size_t run_length, size_t from,
                           uint8_t *out, size_t out_length);

/* What codes and a cover from elsewhere are worth for a listing (02, request 10): `OK`, `UN` and a requirement, or `AT`, a state and an
   input. */
int64_t second_check(const uint8_t *listing, size_t listing_length, const uint8_t *codes, size_t codes_length,
                     const uint8_t *cover, size_t cover_length, uint8_t *out, size_t out_length);

/* The steps, for the tests. */

/* From a text to a machine, or to the refusal of its lines. */
typedef struct second_refusal second_reader(const uint8_t *text, size_t length, struct second_machine *machine);

/* second_read.c */
struct second_refusal second_read_head(const uint8_t *listing, size_t length, struct second_machine *machine);
struct second_refusal second_read_lines(const uint8_t *listing, size_t length, struct second_machine *machine);
bool second_share_input(const struct second_row *one, const struct second_row *other, unsigned inputs);
bool second_share_state(const struct second_row *one, const struct second_row *other);
struct second_refusal second_find_conflict(const struct second_machine *machine);

/* second_code.c */
uint64_t second_all_states(unsigned states);
unsigned second_size(uint64_t set);
void second_draw_up(const struct second_machine *machine, struct second_requirements *requirements);
bool second_bit_meets(struct second_requirement requirement, uint64_t bit);
int second_met_by(struct second_requirement requirement, const struct second_code *code); /* a bit, or SECOND_NO_BIT */
bool second_near(struct second_requirement requirement, uint64_t bit);
bool second_looks_at(struct second_requirement requirement, uint64_t bit, unsigned state);
int64_t second_met_number(const struct second_requirement *live, unsigned number, uint64_t bit);
int64_t second_gain(const struct second_requirement *live, unsigned number, uint64_t bit, unsigned state);
void second_gains(const struct second_requirement *live, unsigned number, uint64_t bit, int64_t gain[SECOND_STATES]);
uint64_t second_build_bit(const struct second_requirement *live, unsigned number, unsigned states,
                          uint64_t *passes, uint64_t *looks);
struct second_refusal second_build_code(const struct second_requirements *requirements, unsigned states,
                                        unsigned width, struct second_code *code);

/* second_least.c */
struct second_refusal second_least_code(const uint8_t *listing, size_t length, struct second_machine *machine,
                                        struct second_requirements *requirements, struct second_code *code);

/* second.c */

/* From a listing to its requirements and a code, or to the refusal. */
typedef struct second_refusal second_finder(const uint8_t *listing, size_t length, struct second_machine *machine,
                                            struct second_requirements *requirements, struct second_code *code);
int64_t second_report_by(second_finder *find, const uint8_t *listing, size_t listing_length, uint8_t *out, size_t out_length);
int64_t second_cover_by(second_finder *find, const uint8_t *listing, size_t listing_length, uint8_t *out, size_t out_length);

/* second_kiss.c */

/* The headers of KISS2 that stand at most once: `.i .o .s .p .r`, in this order. */
enum { SECOND_KISS_I, SECOND_KISS_O, SECOND_KISS_S, SECOND_KISS_P, SECOND_KISS_R, SECOND_KISS_HEADERS };

/* A name, where it stands in the text. */
struct second_kiss_name {
    const uint8_t *at;
    size_t length;
};

/* What can be wrong with one line, each judged for itself; 3, 1, 12 and 2 in this order decide. */
enum {
    SECOND_KISS_PLACE = 1,
    SECOND_KISS_BAD = 2,
    SECOND_KISS_NAME = 4,
    SECOND_KISS_LIMIT = 8
};

/* What has been read of a KISS2 text. */
struct second_kiss {
    struct second_machine machine;
    unsigned header_line[SECOND_KISS_HEADERS]; /* 0 where there is none */
    unsigned header_number[SECOND_KISS_HEADERS];
    unsigned lines; /* of rows, before joining */
    unsigned names;
    struct second_kiss_name name[SECOND_STATES];
    bool whole[SECOND_ROWS]; /* the rows that have a line whose present state is `*` */
    unsigned faults;         /* of the line that is refused, all of them */
};

struct second_refusal second_kiss_read(const uint8_t *text, size_t length, struct second_kiss *kiss);

/* second.c */
int64_t second_report_of(second_reader *read, const uint8_t *text, size_t length, uint8_t *out, size_t out_length);
int64_t second_cover_of(second_reader *read, const uint8_t *text, size_t length, uint8_t *out, size_t out_length);
char second_face_place(uint64_t group, uint64_t bit);
int64_t second_part(const uint8_t *text, size_t text_length, size_t from, uint8_t *out, size_t out_length);

/* second_check.c */

/* "a 257th cover row is 2"; the places of a row's outputs that fit a listing: the next code and the outputs. */
#define SECOND_PLA_ROWS 256
#define SECOND_PLA_PLACES (SECOND_WIDTH + SECOND_OUTPUTS)

/* A cover from elsewhere; a row's characters, where they stand in its text. */
struct second_pla_row {
    const uint8_t *input;
    const uint8_t *output;
};

struct second_pla {
    unsigned inputs;
    unsigned outputs;
    bool typed;    /* there is a line `.type fd` */
    unsigned said; /* the number of `.p` */
    unsigned rows; /* those read */
    struct second_pla_row row[SECOND_PLA_ROWS];
};

struct second_check_given {
    const uint8_t *listing;
    size_t listing_length;
    const uint8_t *codes;
    size_t codes_length;
    const uint8_t *cover;
    size_t cover_length;
};

struct second_checked {
    struct second_machine machine;
    struct second_code code; /* bits and columns alone */
    struct second_pla pla;
};

struct second_refusal second_read_codes(const uint8_t *text, size_t length, unsigned states, struct second_code *code);
struct second_refusal second_read_pla(const uint8_t *text, size_t length, struct second_pla *pla);
struct second_refusal second_check_read(const struct second_check_given *given, struct second_checked *checked);

/* What the listing wants of the next code and the outputs: `0`, `1`, or `-` for anything; and whether rows that say so agree. */
void second_want(const struct second_machine *machine, const struct second_code *code, unsigned state, unsigned input,
                 char want[SECOND_PLA_PLACES]);
bool second_agrees(char want, bool one, bool dash);

/* second_trial.c: the trial record (01, "Looks"). Each of these answers SECOND_FINE or SECOND_BAD_CALL. */
struct second_trial {
    unsigned states; /* 0 in the empty record */
    uint64_t bit;
    uint64_t moved;
    uint64_t looks;
    unsigned number;
    struct second_requirement list[SECOND_TRIAL_REQUIREMENTS];
};

unsigned second_trial_start(uint64_t states, uint64_t bit, const uint64_t *firsts, size_t first_number,
                            const uint64_t *seconds, size_t second_number, struct second_trial *trial);
unsigned second_trial_move(struct second_trial *trial, uint64_t state);
unsigned second_trial_gain(const struct second_trial *trial, uint64_t state, int64_t *gain);
uint64_t second_trial_looks(const struct second_trial *trial);

#endif
