/* The second encoder's reader: from a listing's bytes to a machine, or to the refusal (1 to 6, 13 and 17) that 01 and 02 name. */
#include "second.h"

struct field {
    const uint8_t *at;
    size_t length;
};

/* A line without its LF, and whether it had one. */
struct line {
    const uint8_t *at;
    size_t length;
    bool ended;
};

/* The most fields that a line of any mark has: PT has five, MC and MO five or six, FT one for each column and its mark. */
#define FIELDS (1 + SECOND_COLUMNS)

static struct second_refusal refuse(unsigned number, unsigned line)
{
    struct second_refusal refusal = {number, line};
    return refusal;
}

/* "Text lines, each ended by LF": the line at *at; *at then stands behind it. Bytes behind the last LF are a line too
   (reading 1). */
static struct line take_line(const uint8_t *listing, size_t length, size_t *at)
{
    struct line line = {listing + *at, 0, false};
    while (*at < length) {
        uint8_t byte = listing[*at];
        (*at)++;
        if (byte == '\n') {
            line.ended = true;
            return line;
        }
        line.length++;
    }
    return line;
}

/* "fields parted by one space": every space parts two fields (reading 3). Answers how many fields the line has, and
   gives the first FIELDS of them. */
static size_t split(struct line line, struct field *field)
{
    size_t number = 1;
    field[0].at = line.at;
    field[0].length = 0;
    for (size_t at = 0; at < line.length; at++) {
        if (line.at[at] == ' ') {
            number++;
            if (number <= FIELDS) {
                field[number - 1].at = line.at + at + 1;
                field[number - 1].length = 0;
            }
        } else if (number <= FIELDS) {
            field[number - 1].length++;
        }
    }
    return number;
}

/* "The mark is a line's whole first field, so `MCX` is an unknown one." */
static bool is_mark(struct field field, const char *mark)
{
    return field.length == 2 && field.at[0] == (uint8_t)mark[0] && field.at[1] == (uint8_t)mark[1];
}

/* "Each number is one to four digits, no leading zero except `0` itself." */
static bool read_number(struct field field, unsigned *number)
{
    if (field.length < 1 || field.length > 4)
        return false;
    if (field.length > 1 && field.at[0] == '0')
        return false;
    *number = 0;
    for (size_t at = 0; at < field.length; at++) {
        if (field.at[at] < '0' || field.at[at] > '9')
            return false;
        *number = *number * 10 + (field.at[at] - '0');
    }
    return true;
}

/* A field of so many characters, each out of the ones allowed. */
static bool has_form(struct field field, size_t length, const char *allowed)
{
    if (field.length != length)
        return false;
    for (size_t at = 0; at < length; at++) {
        bool known = false;
        for (const char *one = allowed; *one != 0; one++)
            if (field.at[at] == (uint8_t)*one)
                known = true;
        if (!known)
            return false;
    }
    return true;
}

/* "Character j of a group, next or dichotomy is state j, from 0": the states that have this character. */
static uint64_t states_with(struct field field, char character)
{
    uint64_t set = 0;
    for (size_t state = 0; state < field.length; state++)
        if (field.at[state] == (uint8_t)character)
            set |= (uint64_t)1 << state;
    return set;
}

/* "`MC n i o w`: states 1..32, inputs 1..16, outputs 1..32, width 0..32"; 64 for states and width (02, request 09). "An optional
   fifth number on `MC`, 1, keeps every row; 0 or absence drops them", and "a fifth number above 1 is 2" (02, request 07); a
   sixth is 1 (reading 24). `MO` has the same numbers (02, request 13). */
static unsigned read_head(const struct field *field, size_t fields, struct second_machine *machine)
{
    machine->keep = 0;
    if (fields != 5 && fields != 6)
        return SECOND_BAD_LINE;
    if (!read_number(field[1], &machine->states) || !read_number(field[2], &machine->inputs) ||
        !read_number(field[3], &machine->outputs) || !read_number(field[4], &machine->width))
        return SECOND_BAD_LINE;
    if (fields == 6 && !read_number(field[5], &machine->keep))
        return SECOND_BAD_LINE;
    if (machine->states < 1 || machine->states > SECOND_STATES)
        return SECOND_LIMIT;
    if (machine->inputs < 1 || machine->inputs > SECOND_INPUTS)
        return SECOND_LIMIT;
    if (machine->outputs < 1 || machine->outputs > SECOND_OUTPUTS)
        return SECOND_LIMIT;
    if (machine->width > SECOND_WIDTH)
        return SECOND_LIMIT;
    if (machine->keep > 1)
        return SECOND_LIMIT;
    return SECOND_FINE;
}

/* "`PT input group next outputs`: a row"; under `MO` "rows then have no outputs" (02, request 13). */
static bool is_good_row(const struct field *field, size_t fields, const struct second_machine *machine)
{
    if (fields != (machine->moore ? 4 : 5))
        return false;
    if (!has_form(field[1], machine->inputs, "01-") || !has_form(field[2], machine->states, "01") ||
        !has_form(field[3], machine->states, "01"))
        return false;
    return machine->moore || has_form(field[4], machine->outputs, "01-");
}

/* Within the line 1, then 2 for the 129th, then 4, then 5 (reading 7). "The cover prints the rows with zeros for outputs", those
   of a Moore machine. */
static unsigned read_pt(const struct field *field, size_t fields, unsigned line, struct second_machine *machine)
{
    if (!is_good_row(field, fields, machine))
        return SECOND_BAD_LINE;
    if (machine->rows == SECOND_ROWS)
        return SECOND_LIMIT;
    uint64_t group = states_with(field[2], '1');
    uint64_t next = states_with(field[3], '1');
    if (group == 0)
        return SECOND_EMPTY_GROUP;
    if (second_size(next) >= 2)
        return SECOND_NEXT;
    struct second_row *row = &machine->row[machine->rows];
    row->line = line;
    row->group = group;
    row->next = SECOND_NO_STATE;
    for (unsigned state = 0; state < machine->states; state++)
        if (next >> state & 1)
            row->next = (int)state;
    memcpy(row->input, field[1].at, machine->inputs);
    memset(row->outputs, '0', sizeof row->outputs);
    if (!machine->moore)
        memcpy(row->outputs, field[4].at, machine->outputs);
    machine->rows++;
    return SECOND_FINE;
}

/* "`DI` and n of `+ - .`: a dichotomy. `+` is the first block, `-` the second, `.` neither." */
static unsigned read_di(const struct field *field, size_t fields, struct second_machine *machine)
{
    if (fields != 2)
        return SECOND_BAD_LINE;
    if (!has_form(field[1], machine->states, "+-."))
        return SECOND_BAD_LINE;
    if (machine->dichotomies == SECOND_DICHOTOMIES)
        return SECOND_LIMIT;
    struct second_requirement *dichotomy = &machine->dichotomy[machine->dichotomies];
    dichotomy->first = states_with(field[1], '+');
    dichotomy->second = states_with(field[1], '-');
    machine->dichotomies++;
    return SECOND_FINE;
}

/* "any `OU` under `MC`" is 3, and so is "a second `OU` for a state", before 1 "as soon as its number can be read" (reading 29),
   whatever else is on the line. */
static bool is_misplaced(const struct field *field, size_t fields, const struct second_machine *machine)
{
    unsigned state;
    if (!machine->moore)
        return true;
    if (fields < 2 || !read_number(field[1], &state))
        return false;
    return state < machine->states && (machine->told >> state & 1);
}

/* 02, request 13: "each state has one line `OU state outputs`", the outputs as a row has them elsewhere (reading 29); "an `OU`
   state not below n is 2". */
static unsigned read_ou(const struct field *field, size_t fields, struct second_machine *machine)
{
    unsigned state;
    if (fields != 3)
        return SECOND_BAD_LINE;
    if (!read_number(field[1], &state) || !has_form(field[2], machine->outputs, "01-"))
        return SECOND_BAD_LINE;
    if (state >= machine->states)
        return SECOND_LIMIT;
    machine->told |= (uint64_t)1 << state;
    memcpy(machine->told_outputs[state], field[2].at, machine->outputs);
    return SECOND_FINE;
}

/* A field of a flow table: "a next state number, written as in `MC`, or a dash"; "a state number not below n is 1". */
static bool read_next(struct field field, const struct second_machine *machine, int *next)
{
    unsigned state;
    *next = SECOND_NO_STATE;
    if (field.length == 1 && field.at[0] == '-')
        return true;
    if (!read_number(field, &state) || state >= machine->states)
        return false;
    *next = (int)state;
    return true;
}

/* 02, request 05: "one line for each state in order, `FT` and for each column a next state number ... or a dash, as many columns
   as the first line has"; "a wrong column count (first line: 0 or over 16) ... is 1". */
static unsigned read_ft(const struct field *field, size_t fields, struct second_machine *machine)
{
    size_t columns = fields - 1;
    if (columns < 1 || columns > SECOND_COLUMNS)
        return SECOND_BAD_LINE;
    if (machine->flow_lines > 0 && columns != machine->columns)
        return SECOND_BAD_LINE;
    for (size_t column = 0; column < columns; column++)
        if (!read_next(field[1 + column], machine, &machine->flow[machine->flow_lines][column]))
            return SECOND_BAD_LINE;
    machine->columns = (unsigned)columns;
    machine->flow_lines++;
    return SECOND_FINE;
}

/* "`FT` beside `PT` or `DI` is 3 at the later line; a line too many is 3 at its line, too few is 3 at `EN`", each even where the
   line is malformed (reading 23); "`FT` under `MO`" is 3 too (request 13). "Without any `FT` the listing is an ordinary one." */
static bool is_out_of_table(struct field mark, const struct second_machine *machine)
{
    if (is_mark(mark, "FT"))
        return machine->moore || machine->rows > 0 || machine->dichotomies > 0 || machine->flow_lines == machine->states;
    if (machine->flow_lines == 0)
        return false;
    if (is_mark(mark, "PT") || is_mark(mark, "DI"))
        return true;
    return is_mark(mark, "EN") && machine->flow_lines < machine->states;
}

/* The place of a line, 3 if it is wrong: "On line 1 a mark other than `MC`, known or not, is 3"; "a second `MC`" is 3. `MO` may
   stand "in place of `MC`", and "a second head line of either kind" is 3. */
static bool is_in_place(const struct field *field, size_t fields, unsigned number, const struct second_machine *machine)
{
    bool is_head = is_mark(field[0], "MC") || is_mark(field[0], "MO");
    if (number == 1 && !is_head)
        return false;
    if (number != 1 && is_head)
        return false;
    if (number != 1 && is_out_of_table(field[0], machine))
        return false;
    return number == 1 || !is_mark(field[0], "OU") || !is_misplaced(field, fields, machine);
}

/* One line before the end, numbered from 1: "within it 3, 1, 2, 4, 5". *at_end tells that it was a good `EN`. */
static unsigned read_line(struct line line, unsigned number, struct second_machine *machine, bool *at_end)
{
    struct field field[FIELDS];
    size_t fields = split(line, field);
    if (!is_in_place(field, fields, number, machine))
        return SECOND_PLACE;

    /* "LF missing" is 1, before anything about the fields (reading 1). */
    if (!line.ended)
        return SECOND_BAD_LINE;

    if (number == 1) {
        machine->moore = is_mark(field[0], "MO");
        return read_head(field, fields, machine);
    }
    if (is_mark(field[0], "PT"))
        return read_pt(field, fields, number, machine);
    if (is_mark(field[0], "OU"))
        return read_ou(field, fields, machine);
    if (is_mark(field[0], "DI"))
        return read_di(field, fields, machine);
    if (is_mark(field[0], "FT"))
        return read_ft(field, fields, machine);
    if (is_mark(field[0], "EN")) {
        if (fields != 1)
            return SECOND_BAD_LINE;
        *at_end = true;
        return SECOND_FINE;
    }

    /* "later an unknown mark is 1." */
    return SECOND_BAD_LINE;
}

/* A machine of which nothing has been read. */
static void clear(struct second_machine *machine)
{
    machine->moore = false;
    machine->told = 0;
    machine->rows = 0;
    machine->cover_rows = 0;
    machine->flow_lines = 0;
    machine->columns = 0;
    machine->dichotomies = 0;
}

/* P10's "first lines alone": the head line with its LF (reading 10). */
struct second_refusal second_read_head(const uint8_t *listing, size_t length, struct second_machine *machine)
{
    size_t at = 0;
    bool at_end = false;
    clear(machine);
    unsigned fault = read_line(take_line(listing, length, &at), 1, machine, &at_end);
    return refuse(fault, fault == SECOND_FINE ? 0 : 1);
}

/* "then one row for each state: dashes for the inputs, the state's code, zeros for the next code, its outputs", in state order
   (reading 29): the row of a group of one state that names no next one. */
static void add_rows(struct second_machine *machine)
{
    machine->cover_rows = machine->rows;
    for (unsigned state = 0; machine->moore && state < machine->states; state++) {
        struct second_row *row = &machine->row[machine->cover_rows];
        row->line = 0;
        memset(row->input, '-', sizeof row->input);
        row->group = (uint64_t)1 << state;
        row->next = SECOND_NO_STATE;
        memcpy(row->outputs, machine->told_outputs[state], sizeof row->outputs);
        machine->cover_rows++;
    }
}

/* "13 for a destination that isn't stable in its column, at the first line that goes to one": the lowest line, whatever the column;
   a destination whose own entry is a dash is not stable (reading 23). The line of state 0 is the second, as nothing may stand
   before or among them. */
static struct second_refusal find_unstable(const struct second_machine *machine)
{
    for (unsigned state = 0; state < machine->flow_lines; state++) {
        for (unsigned column = 0; column < machine->columns; column++) {
            int next = machine->flow[state][column];
            if (next != SECOND_NO_STATE && machine->flow[next][column] != next)
                return refuse(SECOND_UNSTABLE, state + 2);
        }
    }
    return refuse(SECOND_FINE, 0);
}

/* "In a column, each destination forms a set with all states that go to it"; a dash is in no set (reading 23). The sets "by lowest
   member": each is found at the lowest state that goes to its destination, which is stable and so goes to itself. */
static unsigned find_sets(const struct second_machine *machine, unsigned column, uint64_t set[SECOND_STATES])
{
    unsigned sets = 0;
    uint64_t done = 0;
    for (unsigned lowest = 0; lowest < machine->states; lowest++) {
        int next = machine->flow[lowest][column];
        if (next == SECOND_NO_STATE || (done >> lowest & 1))
            continue;
        set[sets] = 0;
        for (unsigned state = lowest; state < machine->states; state++)
            if (machine->flow[state][column] == next)
                set[sets] |= (uint64_t)1 << state;
        done |= set[sets];
        sets++;
    }
    return sets;
}

/* "each two sets give one dichotomy", "first set `+`, other `-`"; "Columns go left to right". "Those dichotomies stand in place of
   `DI`"; equal ones from different columns all count (reading 23), and "more than 64 dichotomies is 2 at line 0". */
static struct second_refusal draw_flow(struct second_machine *machine)
{
    uint64_t set[SECOND_STATES];
    for (unsigned column = 0; column < machine->columns; column++) {
        unsigned sets = find_sets(machine, column, set);
        for (unsigned first = 0; first < sets; first++) {
            for (unsigned second = first + 1; second < sets; second++) {
                if (machine->dichotomies == SECOND_DICHOTOMIES)
                    return refuse(SECOND_LIMIT, 0);
                machine->dichotomy[machine->dichotomies].first = set[first];
                machine->dichotomy[machine->dichotomies].second = set[second];
                machine->dichotomies++;
            }
        }
    }
    return refuse(SECOND_FINE, 0);
}

/* "13 ... after all lines are read; then more than 64 dichotomies". */
static struct second_refusal judge_flow(struct second_machine *machine)
{
    struct second_refusal unstable = find_unstable(machine);
    return unstable.number == SECOND_FINE ? draw_flow(machine) : unstable;
}

/* "Order: too long; then lines from the top, the first faulty line decides". "bytes after `EN`" are 3 at the line they
   begin (reading 4); without `EN` it is 3 at "one past the last" (reading 5), so an empty listing is 3 at line 1. "a state
   without one is 17 at the `EN` line", the last, after all lines (reading 29), as a flow table is judged. */
struct second_refusal second_read_lines(const uint8_t *listing, size_t length, struct second_machine *machine)
{
    clear(machine);
    if (length > SECOND_BYTES)
        return refuse(SECOND_LIMIT, 0);
    size_t at = 0;
    unsigned number = 1;
    bool at_end = false;
    while (at < length) {
        if (at_end)
            return refuse(SECOND_PLACE, number);
        unsigned fault = read_line(take_line(listing, length, &at), number, machine, &at_end);
        if (fault != SECOND_FINE)
            return refuse(fault, number);
        number++;
    }
    if (!at_end)
        return refuse(SECOND_PLACE, number);
    if (machine->moore && machine->told != second_all_states(machine->states))
        return refuse(SECOND_UNTOLD, number - 1);
    add_rows(machine);
    return judge_flow(machine);
}

/* Some input vector agrees with both rows' inputs: no place asks 0 in one and 1 in the other. */
bool second_share_input(const struct second_row *one, const struct second_row *other, unsigned inputs)
{
    for (unsigned place = 0; place < inputs; place++) {
        if (one->input[place] == '0' && other->input[place] == '1')
            return false;
        if (one->input[place] == '1' && other->input[place] == '0')
            return false;
    }
    return true;
}

bool second_share_state(const struct second_row *one, const struct second_row *other)
{
    return (one->group & other->group) != 0;
}

/* "two rows share an input vector and a state and name different next states"; "A row without a next state clashes with
   none." */
static bool clash(const struct second_row *one, const struct second_row *other, unsigned inputs)
{
    if (one->next == SECOND_NO_STATE || other->next == SECOND_NO_STATE)
        return false;
    if (one->next == other->next)
        return false;
    return second_share_state(one, other) && second_share_input(one, other, inputs);
}

/* "Pairs for 6 are ordered by the earlier row and then the later one, and the scan stops at the first pair that
   clashes"; the line is the later row's. */
struct second_refusal second_find_conflict(const struct second_machine *machine)
{
    for (unsigned earlier = 0; earlier < machine->rows; earlier++)
        for (unsigned later = earlier + 1; later < machine->rows; later++)
            if (clash(&machine->row[earlier], &machine->row[later], machine->inputs))
                return refuse(SECOND_CONFLICT, machine->row[later].line);
    return refuse(SECOND_FINE, 0);
}
