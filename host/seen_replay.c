/* What a run of the comparison has seen of recorded runs, each judged from the listing, the run and the answer, whatever was meant. */
#include "seen_replay.h"
#include "second.h"
#include "seen.h"

/* Of a run, only so many steps are looked at one by one. */
#define LOOKED_AT 60

enum sort {
    ENDED,
    NO_STEPS,
    STEPS_100,
    STEPS_ALL,
    NO_BITS,
    MOORE,
    WIDE,
    FREE,
    FREE_ZERO,
    OUTPUTS_AFTER,
    SILENT_ROW,
    TWO_ROWS,
    STUCK_FIRST,
    STUCK_LATER,
    STUCK_FLOW,
    STUCK_FIRING,
    STUCK_FAULT,
    OVER,
    OVER_STUCK,
    OVER_BAD,
    MISSING,
    START_IS_INPUT,
    START_MARK,
    START_NUMBER,
    START_RANGE,
    START_N,
    START_FIELDS,
    START_NO_LF,
    BLANK,
    SECOND_START,
    MARK,
    SHORT,
    LONGER,
    DASH,
    CHARACTER,
    FIELDS,
    NO_LF,
    NO_LF_GOOD,
    BAD_FIRST,
    BAD_LATER,
    UNMET,
    UNMET_BAD_RUN,
    TOO_WIDE,
    REFUSED,
    REFUSED_BAD_RUN,
    SORTS
};

static struct seen_sort sorts[SORTS] = {
    [ENDED] = {"steps to the end", 500, 0},
    [NO_STEPS] = {"no step", 100, 0},
    [STEPS_100] = {"100 steps and more", 60, 0},
    [STEPS_ALL] = {"10,000 steps to the end", 20, 0},
    [NO_BITS] = {"no bits", 200, 0},
    [MOORE] = {"a Moore machine", 400, 0},
    [WIDE] = {"more than 32 states", 20, 0},
    [FREE] = {"a free output", 500, 0},
    [FREE_ZERO] = {"a free output that the cover writes 0", 40, 0},
    [OUTPUTS_AFTER] = {"other outputs in the state after", 500, 0},
    [SILENT_ROW] = {"a firing row that names no next state", 300, 0},
    [TWO_ROWS] = {"two firing rows that name one", 200, 0},
    [STUCK_FIRST] = {"14 at the first", 300, 0},
    [STUCK_LATER] = {"14 after steps", 150, 0},
    [STUCK_FLOW] = {"14 of a flow table", 100, 0},
    [STUCK_FIRING] = {"14 where a row fires", 40, 0},
    [STUCK_FAULT] = {"14 with a bad line behind", 60, 0},
    [OVER] = {"2 at the 10,001st", 20, 0},
    [OVER_STUCK] = {"2 where the 10,001st names no next state", 5, 0},
    [OVER_BAD] = {"1 at the 10,001st", 10, 0},
    [MISSING] = {"1, no bytes", 60, 0},
    [START_IS_INPUT] = {"1, an input first", 60, 0},
    [START_MARK] = {"1, another first mark", 60, 0},
    [START_NUMBER] = {"1, the start's number", 100, 0},
    [START_RANGE] = {"1, a start not below n", 100, 0},
    [START_N] = {"1, the start is n", 60, 0},
    [START_FIELDS] = {"1, the start's fields", 60, 0},
    [START_NO_LF] = {"1, the start without LF", 40, 0},
    [BLANK] = {"1, a blank line", 60, 0},
    [SECOND_START] = {"1, a second start", 60, 0},
    [MARK] = {"1, a mark", 60, 0},
    [SHORT] = {"1, a short vector", 60, 0},
    [LONGER] = {"1, a long vector", 60, 0},
    [DASH] = {"1, a dash in a vector", 20, 0},
    [CHARACTER] = {"1, another character", 60, 0},
    [FIELDS] = {"1, the number of fields", 60, 0},
    [NO_LF] = {"1, no LF", 60, 0},
    [NO_LF_GOOD] = {"1, nothing but the last LF is missing", 20, 0},
    [BAD_FIRST] = {"1 at the first input", 100, 0},
    [BAD_LATER] = {"1 after steps", 200, 0},
    [UNMET] = {"9", 100, 0},
    [UNMET_BAD_RUN] = {"9 before a bad first line", 10, 0},
    [TOO_WIDE] = {"7", 5, 0},
    [REFUSED] = {"the listing's own", 400, 0},
    [REFUSED_BAD_RUN] = {"the listing's own before a bad first line", 30, 0},
};

struct span {
    const uint8_t *at;
    size_t length;
    bool ended;
};

static struct second_machine machine;

/* ---- the run's lines ---- */

/* The line of this number, from 1. */
static struct span line_of(const uint8_t *run, size_t length, uint64_t number)
{
    size_t at = 0;
    for (uint64_t line = 1; line < number && at < length; at++)
        line += run[at] == '\n';
    struct span span = {run + at, 0, false};
    while (at + span.length < length && run[at + span.length] != '\n')
        span.length++;
    span.ended = at + span.length < length;
    return span;
}

static unsigned spaces_of(struct span line)
{
    unsigned spaces = 0;
    for (size_t at = 0; at < line.length; at++)
        spaces += line.at[at] == ' ';
    return spaces;
}

static bool has_mark(struct span line, const char *mark)
{
    return line.length >= 2 && memcmp(line.at, mark, 2) == 0 && (line.length == 2 || line.at[2] == ' ');
}

/* The number behind a mark, or -1. */
static int number_of(struct span line)
{
    int number = 0;
    if (line.length < 4 || line.length > 7 || (line.at[3] == '0' && line.length > 4))
        return -1;
    for (size_t at = 3; at < line.length; at++) {
        if (line.at[at] < '0' || line.at[at] > '9')
            return -1;
        number = number * 10 + (line.at[at] - '0');
    }
    return number;
}

static enum sort sort_start(struct span line, bool any)
{
    if (!any)
        return MISSING;
    if (has_mark(line, "IN"))
        return START_IS_INPUT;
    if (!has_mark(line, "SS"))
        return START_MARK;
    if (!line.ended)
        return START_NO_LF;
    if (spaces_of(line) != 1)
        return START_FIELDS;
    return number_of(line) < 0 ? START_NUMBER : START_RANGE;
}

static bool is_vector(struct span line)
{
    for (size_t at = 3; at < line.length; at++)
        if (line.at[at] != '0' && line.at[at] != '1')
            return false;
    return line.length == 3 + machine.inputs;
}

static enum sort sort_input(struct span line)
{
    if (line.length == 0)
        return BLANK;
    if (!line.ended)
        return NO_LF;
    if (has_mark(line, "SS"))
        return SECOND_START;
    if (!has_mark(line, "IN"))
        return MARK;
    if (spaces_of(line) != 1)
        return FIELDS;
    if (line.length < 3 + machine.inputs)
        return SHORT;
    if (line.length > 3 + machine.inputs)
        return LONGER;
    for (size_t at = 3; at < line.length; at++)
        if (line.at[at] == '-')
            return DASH;
    return CHARACTER;
}

/* ---- the steps ---- */

static bool fires(const struct second_row *row, unsigned state, const uint8_t *vector)
{
    for (unsigned place = 0; place < machine.inputs; place++)
        if (row->input[place] != '-' && row->input[place] != vector[place])
            return false;
    return row->group >> state & 1;
}

static char output_of(unsigned state, const uint8_t *vector, unsigned place)
{
    char means = '0';
    for (unsigned at = 0; at < machine.cover_rows; at++) {
        char says = (char)machine.row[at].outputs[place];
        if (fires(&machine.row[at], state, vector) && (says == '1' || (says == '-' && means == '0')))
            means = says;
    }
    return means;
}

/* Whether each firing dash of this output stands in a row that a row which says 1 meets, so that no firing row of the cover has it. */
static bool is_written_zero(unsigned state, const uint8_t *vector, unsigned place)
{
    for (unsigned at = 0; at < machine.cover_rows; at++) {
        bool meets = false;
        if (machine.row[at].outputs[place] != '-' || !fires(&machine.row[at], state, vector))
            continue;
        for (unsigned other = 0; other < machine.cover_rows; other++)
            meets = meets || (machine.row[other].outputs[place] == '1' && second_share_state(&machine.row[at], &machine.row[other]) &&
                              second_share_input(&machine.row[at], &machine.row[other], machine.inputs));
        if (!meets)
            return false;
    }
    return true;
}

/* One step from a state to another. */
static void note_step(unsigned before, unsigned after, const uint8_t *vector, bool sort[SORTS])
{
    unsigned naming = 0;
    for (unsigned at = 0; at < machine.rows; at++) {
        bool silent = machine.row[at].next == SECOND_NO_STATE;
        if (!fires(&machine.row[at], before, vector))
            continue;
        naming += !silent;
        sort[SILENT_ROW] |= silent;
    }
    sort[TWO_ROWS] |= naming > 1;
    for (unsigned place = 0; place < machine.outputs; place++) {
        char output = output_of(before, vector, place);
        sort[FREE] |= output == '-';
        sort[FREE_ZERO] |= output == '-' && is_written_zero(before, vector, place);
        sort[OUTPUTS_AFTER] |= output != output_of(after, vector, place);
    }
}

/* The state of an `ST` line. */
static unsigned state_of(const uint8_t *line)
{
    unsigned state = line[3] - '0';
    return line[4] == ' ' ? state : state * 10 + (line[4] - '0');
}

/* The steps of the text; answers how many, and the state after the last of them in *state. */
static uint64_t note_steps(const uint8_t *run, size_t run_length, const uint8_t *text, size_t length, unsigned *state,
                           bool sort[SORTS])
{
    uint64_t steps = 0;
    for (uint64_t line = 1; line <= LOOKED_AT; line++) {
        struct span said = line_of(text, length, line);
        if (said.length == 0 || said.at[0] != 'S')
            break;
        note_step(*state, state_of(said.at), line_of(run, run_length, line + 1).at + 3, sort);
        sort[NO_BITS] |= said.at[5] == '-' && said.at[4] == ' ' && said.at[6] == ' ';
        *state = state_of(said.at);
    }
    for (size_t at = 0; at < length; at++) {
        if (text[at] != 'S')
            continue;
        *state = state_of(text + at);
        steps++;
    }
    sort[MOORE] = steps > 0 && machine.moore;
    sort[WIDE] = steps > 0 && machine.states > 32;
    sort[STEPS_100] = steps >= 100;
    return steps;
}

/* ---- how it ends ---- */

/* Whether no row that fires names a next state. */
static bool is_stuck(unsigned state, const uint8_t *vector)
{
    for (unsigned at = 0; at < machine.rows; at++)
        if (machine.row[at].next != SECOND_NO_STATE && fires(&machine.row[at], state, vector))
            return false;
    return true;
}

static void note_stuck(const uint8_t *run, size_t length, uint64_t line, uint64_t steps, unsigned state, bool sort[SORTS])
{
    struct span input = line_of(run, length, line);
    struct span behind = line_of(run, length, line + 1);
    sort[steps == 0 ? STUCK_FIRST : STUCK_LATER] = true;
    sort[STUCK_FLOW] = machine.flow_lines > 0;
    for (unsigned at = 0; at < machine.rows; at++)
        sort[STUCK_FIRING] |= fires(&machine.row[at], state, input.at + 3);
    sort[STUCK_FAULT] = behind.at < run + length && (!behind.ended || !has_mark(behind, "IN") || !is_vector(behind));
}

static void note_bad(const uint8_t *run, size_t length, uint64_t line, uint64_t steps, bool sort[SORTS])
{
    struct span bad = line_of(run, length, line);
    if (line == 1) {
        sort[sort_start(bad, length > 0)] = true;
        sort[START_N] = sort[START_RANGE] && number_of(bad) == (int)machine.states;
        return;
    }
    sort[sort_input(bad)] = true;
    sort[NO_LF_GOOD] = !bad.ended && has_mark(bad, "IN") && is_vector(bad);
    sort[steps == 0 ? BAD_FIRST : BAD_LATER] = true;
    sort[OVER_BAD] = steps == SECOND_STEPS;
}

/* The last line, if it is a refusal: its number, and *line; else 0. */
static unsigned last_refusal(const uint8_t *text, size_t length, uint64_t *line)
{
    unsigned number = 0;
    size_t at = length;
    while (at > 0 && text[at - 1] != 'O')
        at--;
    if (at == 0)
        return 0;
    for (at++; text[at] != ' '; at++)
        number = number * 10 + (unsigned)(text[at] - '0');
    *line = 0;
    for (at++; text[at] != '\n'; at++)
        *line = *line * 10 + (uint64_t)(text[at] - '0');
    return number;
}

static uint64_t note_answer(const uint8_t *run, size_t run_length, const uint8_t *text, size_t length, bool sort[SORTS])
{
    uint64_t line = 0;
    unsigned number = last_refusal(text, length, &line);
    struct span start = line_of(run, run_length, 1);
    unsigned state = number == SECOND_BAD_LINE && line == 1 ? 0 : (unsigned)number_of(start);
    uint64_t steps = note_steps(run, run_length, text, length, &state, sort);
    sort[ENDED] = number == 0 && steps > 0;
    sort[NO_STEPS] = length == 0;
    sort[STEPS_ALL] = number == 0 && steps == SECOND_STEPS;
    sort[OVER] = number == SECOND_LIMIT;
    sort[OVER_STUCK] = number == SECOND_LIMIT && is_stuck(state, line_of(run, run_length, line).at + 3);
    if (number == SECOND_STUCK)
        note_stuck(run, run_length, line, steps, state, sort);
    if (number == SECOND_BAD_LINE)
        note_bad(run, run_length, line, steps, sort);
    return steps;
}

static void note_refused(const uint8_t *run, size_t length, int64_t answer, bool sort[SORTS])
{
    struct span start = line_of(run, length, 1);
    bool bad = !has_mark(start, "SS") || !start.ended || spaces_of(start) != 1 || number_of(start) < 0;
    sort[UNMET] = answer == -900000;
    sort[UNMET_BAD_RUN] = answer == -900000 && bad;
    sort[TOO_WIDE] = answer == -700000;
    sort[REFUSED] = !sort[UNMET] && !sort[TOO_WIDE];
    sort[REFUSED_BAD_RUN] = sort[REFUSED] && bad;
}

uint64_t seen_replay(const uint8_t *listing, size_t listing_length, const uint8_t *run, size_t run_length, int64_t answer,
                     const uint8_t *text)
{
    bool sort[SORTS] = {false};
    uint64_t steps = 0;
    second_read_lines(listing, listing_length, &machine);
    if (answer >= 0)
        steps = note_answer(run, run_length, text, (size_t)answer, sort);
    else
        note_refused(run, run_length, answer, sort);
    for (unsigned at = 0; at < SORTS; at++)
        sorts[at].seen += sort[at];
    return steps;
}

void seen_replay_print(void)
{
    seen_print_sorts("runs with", sorts, 0, STUCK_FIRST);
    seen_print_sorts("runs that end", sorts, STUCK_FIRST, UNMET);
    seen_print_sorts("listings refused", sorts, UNMET, SORTS);
}

bool seen_replay_each(void)
{
    return seen_enough(sorts, SORTS);
}
