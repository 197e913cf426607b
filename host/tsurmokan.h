/* Tsurmokan for C: link the archive that `rt lib` writes in crates/tsurmokan (x86-64). Every function is proved: whatever it is given, it
 * returns, touches nothing but what it is lent to write, and gives the one answer that the definitions in crates/rules/specs give. */
#ifndef TSURMOKAN_H
#define TSURMOKAN_H

#include <stddef.h>
#include <stdint.h>

/* ---- a listing's report and cover ---- */

/* No report is longer, and no cover: a buffer of this many bytes always has room. (A line of counts, 64 lines of codes, a line for each
 * of 10,016 requirements, and the end: report-length of crates/write_report/proofs/Length.antt.) A cover has at most 34,207. */
#define TSURMOKAN_ROOM 124799

/* No line of any text is longer, its LF included: a buffer of this many bytes has room for some part of a report or of a cover. (The
 * longest is a row of the listing that a KISS2 text becomes.) */
#define TSURMOKAN_LINE 183

/* The report of a listing: each state's code, which bit meets which requirement, and what the code leaves unmet.
 *   listing, listing_length   the listing's bytes, any bytes at all
 *   out, out_length           where the report is written; the two buffers must not overlap, and neither pointer is null,
 *                             though a length may be 0
 * Answers the number of bytes written, at least 1; the bytes of `out` behind them are as they came. Or a refusal, below 0:
 * minus (number * 100000 + line), and then `out` is as it came. docs/REFUSALS.md has the numbers: 1 to 10, of which 8 is unused,
 * 13 (a flow table goes to a state that is not stable in its column), 16, which the least code alone can give, and 17. */
extern int64_t tsurmokan_report(const uint8_t *listing, size_t listing_length, uint8_t *out, size_t out_length);

/* The cover of a listing in those codes, in the Berkeley PLA form; a Moore machine's has a row for each state behind those of the listing,
 * a flow table's has none.
 * Rows whose next code and outputs are all zeros are left out; a host that matches lines to rows by position writes a fifth number 1 on the
 * listing's `MC` or `MO` line, and every row has its line. As above; refused 9 where a pair or group requirement is unmet. */
extern int64_t tsurmokan_cover(const uint8_t *listing, size_t listing_length, uint8_t *out, size_t out_length);

/* What each width buys: a line `WD width unmet covered` for each width from 1 to the last that adds a bit, where covered is 1 if a
 * cover would be written in a code of that width, and then `EN`. As above; the listing's own width is not used, and 7 and 9 are never
 * given. 899 bytes are always enough. */
extern int64_t tsurmokan_widths(const uint8_t *listing, size_t listing_length, uint8_t *out, size_t out_length);

/* ---- the fewest bits, for small machines ---- */

/* The report of a listing of up to 6 states and at most 32 requirements in a code of the fewest bits that meets them all: of the shortest
 * codes the first, comparing columns, first column first, as numbers of which state 1 is the highest digit, state 0 having 0. As
 * tsurmokan_report; nothing is unmet, and passes and looks are 0. The listing's own width is not used, and 7 and 9 are never given. More states
 * are refused 2 at line 1, more requirements 2 at line 0 after 6, and 16 says that no code of 5 bits meets everything. 329 bytes are always
 * enough. */
extern int64_t tsurmokan_least(const uint8_t *listing, size_t listing_length, uint8_t *out, size_t out_length);

/* The cover in that code, as tsurmokan_cover writes it, with the refusals of tsurmokan_least; 8,071 bytes are always enough. */
extern int64_t tsurmokan_least_cover(const uint8_t *listing, size_t listing_length, uint8_t *out, size_t out_length);

/* ---- the report and the cover in parts, for a host that is short of memory ---- */

/* What is left of the report of a listing from byte `from` on: as many whole lines as fit.
 *   from                      how many bytes of the report the host has already, 0 at first; any number has its answer, and where
 *                             it lies within a line, the first of the lines is the rest of that one
 *   the others                as above
 * Answers the number of bytes written, whose last is a LF; or 0 where `from` is the report's length or more, and then `out` is as
 * it came. Or a refusal, as above: the listing's own, which is the one that tsurmokan_report gives, or 10 where not even the first
 * line fits. The parts, one after the other, are the report byte for byte. Nothing is kept between two calls: each encodes anew. */
extern int64_t tsurmokan_report_part(const uint8_t *listing, size_t listing_length, size_t from, uint8_t *out, size_t out_length);

/* The same of the cover, with the refusals of tsurmokan_cover. */
extern int64_t tsurmokan_cover_part(const uint8_t *listing, size_t listing_length, size_t from, uint8_t *out, size_t out_length);

/* ---- a machine in the KISS2 form ---- */

/* No listing that a KISS2 text becomes is longer (128 rows of 64 states, 16 inputs and 32 outputs), and no list of names (64 of 31
 * bytes). */
#define TSURMOKAN_KISS_LISTING_ROOM 23441
#define TSURMOKAN_KISS_NAMES_ROOM 2425

/* The report of the listing that a KISS2 text becomes (docs/KISS2.md has the form): its states are numbered from `.r` on as they first
 * appear, and its width is 0.
 *   text, text_length         the text's bytes, any bytes at all
 *   out, out_length           as above, and so is the answer
 * The refusals are 1, 2, 3, 6, 7, 10 and 12. TSURMOKAN_ROOM bytes are always enough. */
extern int64_t tsurmokan_kiss_report(const uint8_t *text, size_t text_length, uint8_t *out, size_t out_length);

/* The cover of that listing; rows that say nothing are left out. */
extern int64_t tsurmokan_kiss_cover(const uint8_t *text, size_t text_length, uint8_t *out, size_t out_length);

/* That listing itself, as text: given to tsurmokan_report or tsurmokan_cover it has the same answer. Nothing is encoded, so 7 is
 * never given. */
extern int64_t tsurmokan_kiss_listing(const uint8_t *text, size_t text_length, uint8_t *out, size_t out_length);

/* The names of its states: a line `NM state name` for each, ascending, then `EN`. The same refusals as tsurmokan_kiss_listing. */
extern int64_t tsurmokan_kiss_names(const uint8_t *text, size_t text_length, uint8_t *out, size_t out_length);

/* ---- a recorded run, replayed ---- */

/* No replay of a run is longer (10,000 steps of a machine of 64 states, 64 bits and 32 outputs, and a refusal: longest-run of
 * crates/run_replay/proofs/Replies.antt), and no line of one. */
#define TSURMOKAN_REPLAY_ROOM 1040012
#define TSURMOKAN_REPLAY_LINE 104

/* The steps of a recorded run over a listing (docs/REPLAY.md has the form): for each a line `ST state code outputs`, with the state and the
 * code after the step and the outputs of the state before it. The code is what the rows of the cover give, and always that state's code.
 *   listing, listing_length   the listing's bytes, any bytes at all
 *   run, run_length           the run's bytes, any bytes and as many as you like
 *   out, out_length           as above; a buffer overlaps neither of the two texts
 * Answers the number of bytes written, which is 0 for a run of no steps. A run that is refused is answered too: the steps before the
 * refusal stay, and the last line is `NO number line`, where the line is one of the run and the number 1, 2 or 14 (no firing row names a
 * next state). A listing that is refused writes nothing: below 0, with the refusals of tsurmokan_cover; so does 10. */
extern int64_t tsurmokan_replay(const uint8_t *listing, size_t listing_length, const uint8_t *run, size_t run_length, uint8_t *out,
                                size_t out_length);

/* What is left of that text from byte `from` on, as tsurmokan_report_part has it of a report: as many whole lines as fit, 0 where nothing is
 * left. Each call encodes and replays anew, so that few large parts are quicker than many small ones. */
extern int64_t tsurmokan_replay_part(const uint8_t *listing, size_t listing_length, const uint8_t *run, size_t run_length, size_t from,
                                     uint8_t *out, size_t out_length);

/* ---- codes and a cover from elsewhere ---- */

/* No answer of a check is longer: `AT 63 65535` and its LF. */
#define TSURMOKAN_CHECK_ROOM 12

/* What codes and a cover that any program made are worth for a listing (docs/CHECK.md has the forms).
 *   listing, listing_length   the listing's bytes, any bytes at all
 *   codes, codes_length       a line `SC state code` for each state in order, and nothing else
 *   cover, cover_length       a cover in those codes, with or without `.type fd`
 *   out, out_length           as above; no two of the four may overlap where one of them is `out`, and no pointer is null
 * Writes `OK` and LF where the codes differ, every group requirement is met, and the cover agrees with the listing in every state at every
 * input; else `UN`, the lowest pair or group requirement that is unmet, and LF; else, where all are met, `AT`, the lowest state where the
 * cover does not agree, the first such input of that state as a number, its leftmost input the highest digit, and LF. Answers the number of
 * bytes written, or a refusal, as above: the listing's own, but never 7 or 9; 1 for a line of the codes, then of the cover; 2 for a 257th
 * row of the cover; 15 for a cover that does not fit the listing and the codes; 10. TSURMOKAN_CHECK_ROOM bytes are always enough. */
extern int64_t tsurmokan_check(const uint8_t *listing, size_t listing_length, const uint8_t *codes, size_t codes_length,
                               const uint8_t *cover, size_t cover_length, uint8_t *out, size_t out_length);

/* ---- single moves on one bit ---- */

/* No record lists more requirements. */
#define TSURMOKAN_TRIAL_MOST 256

/* A state's number, from 0: a struct, so that no other number is passed for it. */
struct tsurmokan_state {
    size_t number;
};

/* A trial record. The caller holds it, copies it as it likes, and may read the first five fields; it writes none of them.
 * A mask has state j as its bit j, counted from the least. */
struct tsurmokan_trial {
    size_t states;   /* n; 0 in the empty record */
    size_t count;    /* the requirements that it lists */
    uint64_t bit;    /* the value of each state now, as a mask */
    uint64_t moved;  /* the states that have moved, as a mask */
    uint64_t looks;  /* the looks so far */
    uint64_t families[3 * TSURMOKAN_TRIAL_MOST]; /* from here on the library's own */
    uint32_t table[64];
};

/* What a start answers. */
struct tsurmokan_started {
    uint32_t refusal; /* 0, or 11 */
    struct tsurmokan_trial trial;
};

/* A record of `states` states at a bit, with requirement r asking that firsts[r] has one value and seconds[r] the other, all of them live.
 * Refused 11, with the empty record, where states is not 1 to 64, there are more than 256 requirements, the two lists are not of one
 * length, the bit or a block has a state that is not below `states`, or two blocks of one requirement overlap. No pointer is null, though
 * a list may have length 0. */
extern struct tsurmokan_started tsurmokan_start(size_t states, uint64_t bit, const uint64_t *firsts, size_t firsts_length,
                                                const uint64_t *seconds, size_t seconds_length);

/* Flips one state of the record that is held. Answers 0; or 11 where the number is no state's or the state has moved already, and
 * then the record is as it was. Its cost is that of the requirements that have the
 * state, beyond one test of each other one. */
extern uint32_t tsurmokan_move(struct tsurmokan_trial *trial, struct tsurmokan_state state);

/* How many more requirements would be met after a flip of this state, moved or not; it may be negative. 0 for a number that is no
 * state's. */
extern int64_t tsurmokan_gain(struct tsurmokan_trial trial, struct tsurmokan_state state);

/* The looks so far: how many times a move found a requirement of the moved state near, before or after. */
extern uint64_t tsurmokan_looks(struct tsurmokan_trial trial);

#endif
