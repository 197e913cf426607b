/* The second encoder's reader of KISS2: from a text's bytes to a machine and its states' names, or to the refusal (1, 2, 3, 12)
   that 02's request 01 and the readings name. */
#include "second.h"

/* "12 for a name over 31 bytes" */
#define NAME_MOST 31

/* The most fields that a line has: a row's. */
#define FIELDS 4

struct field {
    const uint8_t *at;
    size_t length;
};

/* A line without its LF. Fields that are not there are empty. */
struct line {
    unsigned number;
    bool ended;
    size_t fields;
    struct field field[FIELDS];
};

/* What a line is by its first field: one of the headers, or one of these. */
enum { END = SECOND_KISS_HEADERS, UNKNOWN, ROW };

static struct second_refusal refuse(unsigned number, unsigned line)
{
    struct second_refusal refusal = {number, line};
    return refusal;
}

/* "text as in 01 (LF, one space, no comments)" (reading 21): the line at *at, which then stands behind it. Every space parts two
   fields; bytes behind the last LF are a line too. */
static struct line take_line(const uint8_t *text, size_t length, size_t *at, unsigned number)
{
    struct line line = {.number = number, .fields = 1};
    line.field[0].at = text + *at;
    while (*at < length) {
        uint8_t byte = text[*at];
        (*at)++;
        if (byte == '\n') {
            line.ended = true;
            return line;
        }
        if (byte == ' ') {
            if (line.fields < FIELDS)
                line.field[line.fields].at = text + *at;
            line.fields++;
        } else if (line.fields <= FIELDS) {
            line.field[line.fields - 1].length++;
        }
    }
    return line;
}

/* "A first field `.i .o .s .p .r .e` is a mark; any other field beginning with `.` is an unknown mark ..; anything else, an empty
   line too, is a row" (reading 21). */
static unsigned kind_of(const struct line *line)
{
    static const char marks[] = "iospre";
    const struct field *mark = &line->field[0];
    if (mark->length == 0 || mark->at[0] != '.')
        return ROW;
    if (mark->length == 2)
        for (unsigned kind = 0; kind <= END; kind++)
            if (mark->at[1] == (uint8_t)marks[kind])
                return kind;
    return UNKNOWN;
}

/* One to four digits without a needless leading zero (reading 6). */
static bool read_number(struct field field, unsigned *number)
{
    *number = 0;
    if (field.length < 1 || field.length > 4 || (field.length > 1 && field.at[0] == '0'))
        return false;
    for (size_t at = 0; at < field.length; at++) {
        if (field.at[at] < '0' || field.at[at] > '9')
            return false;
        *number = *number * 10 + (field.at[at] - '0');
    }
    return true;
}

/* So many characters, each `0`, `1` or `-`. */
static bool has_form(struct field field, size_t length)
{
    if (field.length != length)
        return false;
    for (size_t at = 0; at < length; at++)
        if (field.at[at] != '0' && field.at[at] != '1' && field.at[at] != '-')
            return false;
    return true;
}

/* ---- names ---- */

static bool same(struct field one, struct field other)
{
    return one.length == other.length && memcmp(one.at, other.at, one.length) == 0;
}

/* "A present state of `*` is the whole group. A next state of `*` names none", and "`*` is no name" (reading 21). */
static bool is_star(struct field field)
{
    return field.length == 1 && field.at[0] == '*';
}

/* The state of this name, or SECOND_NO_STATE. */
static int state_of(const struct second_kiss *kiss, struct field field)
{
    for (unsigned state = 0; state < kiss->names; state++) {
        struct field name = {kiss->name[state].at, kiss->name[state].length};
        if (same(name, field))
            return (int)state;
    }
    return SECOND_NO_STATE;
}

static bool is_new(const struct second_kiss *kiss, struct field field)
{
    return !is_star(field) && state_of(kiss, field) == SECOND_NO_STATE;
}

/* "the others are numbered as they first appear": a name that is new has the next number. */
static int number_name(struct second_kiss *kiss, struct field field)
{
    if (is_star(field))
        return SECOND_NO_STATE;
    if (is_new(kiss, field)) {
        kiss->name[kiss->names].at = field.at;
        kiss->name[kiss->names].length = field.length;
        kiss->names++;
    }
    return state_of(kiss, field);
}

/* ---- what is wrong with a line ---- */

/* "3 for .. a header repeated or after a row, and a row or `.e` with `.i` or `.o` missing", even if malformed (reading 21). */
static bool is_in_place(const struct second_kiss *kiss, unsigned kind)
{
    if (kind == UNKNOWN)
        return true;
    if (kind == ROW || kind == END)
        return kiss->header_line[SECOND_KISS_I] != 0 && kiss->header_line[SECOND_KISS_O] != 0;
    return kiss->header_line[kind] == 0 && kiss->lines == 0;
}

/* "`.i`/`.o` out of range is 2 at its line. `.s` and `.p` have no range, only 12" (reading 21). */
static unsigned judge_number(const struct line *line, unsigned kind)
{
    unsigned number;
    unsigned most = kind == SECOND_KISS_I ? SECOND_INPUTS : SECOND_OUTPUTS;
    unsigned faults = 0;
    bool good = read_number(line->field[1], &number);
    if (!good || line->fields != 2)
        faults |= SECOND_KISS_BAD;
    if (good && (kind == SECOND_KISS_I || kind == SECOND_KISS_O) && (number < 1 || number > most))
        faults |= SECOND_KISS_LIMIT;
    return faults;
}

/* "`*` is no name, so `.r *` is 1" (reading 21). */
static unsigned judge_reset(const struct line *line)
{
    unsigned faults = 0;
    if (line->fields != 2 || line->field[1].length == 0 || is_star(line->field[1]))
        faults |= SECOND_KISS_BAD;
    if (line->field[1].length > NAME_MOST)
        faults |= SECOND_KISS_NAME;
    return faults;
}

/* "2 .. for `.e` with no state" */
static unsigned judge_end(const struct second_kiss *kiss, const struct line *line)
{
    unsigned faults = 0;
    if (line->fields != 1)
        faults |= SECOND_KISS_BAD;
    if (kiss->names == 0)
        faults |= SECOND_KISS_LIMIT;
    return faults;
}

/* "Lines with equal input, next state and outputs become one row": that row, or the number of rows. "Joining compares texts"
   (reading 21); two `*` are equal. */
static unsigned row_of(const struct second_kiss *kiss, const struct line *line)
{
    const struct second_machine *machine = &kiss->machine;
    int next = is_star(line->field[2]) ? SECOND_NO_STATE : state_of(kiss, line->field[2]);
    unsigned row = 0;
    if (is_new(kiss, line->field[2]))
        return machine->rows;
    while (row < machine->rows &&
           (machine->row[row].next != next || memcmp(machine->row[row].input, line->field[0].at, machine->inputs) != 0 ||
            memcmp(machine->row[row].outputs, line->field[3].at, machine->outputs) != 0))
        row++;
    return row;
}

/* "2 for the line that opens a 129th row or names a 33rd state": a 65th (reading 26). */
static bool is_over(const struct second_kiss *kiss, const struct line *line)
{
    struct field present = line->field[1];
    struct field next = line->field[2];
    unsigned names = kiss->names + is_new(kiss, present);
    if (is_new(kiss, next) && !same(present, next))
        names++;
    return names > SECOND_STATES || (kiss->machine.rows == SECOND_ROWS && row_of(kiss, line) == SECOND_ROWS);
}

/* "lines of input, present state, next state, outputs" */
static unsigned judge_row(const struct second_kiss *kiss, const struct line *line)
{
    const struct field *field = line->field;
    unsigned faults = 0;
    bool good = line->fields == 4 && has_form(field[0], kiss->machine.inputs) && field[1].length > 0 &&
                field[2].length > 0 && has_form(field[3], kiss->machine.outputs);
    bool shaped = field[0].length == kiss->machine.inputs && field[3].length == kiss->machine.outputs;
    if (!good)
        faults |= SECOND_KISS_BAD;
    if (field[1].length > NAME_MOST || field[2].length > NAME_MOST)
        faults |= SECOND_KISS_NAME;
    if (shaped && is_over(kiss, line))
        faults |= SECOND_KISS_LIMIT;
    return faults;
}

/* All that is wrong with a line: its place, and its fields; "LF missing" is 1. */
static unsigned judge(const struct second_kiss *kiss, const struct line *line, unsigned kind)
{
    unsigned faults = 0;
    if (!is_in_place(kiss, kind))
        faults |= SECOND_KISS_PLACE;
    if (!line->ended || kind == UNKNOWN)
        faults |= SECOND_KISS_BAD;
    if (kind == ROW)
        return faults | judge_row(kiss, line);
    if (kind == END)
        return faults | judge_end(kiss, line);
    if (kind == SECOND_KISS_R)
        return faults | judge_reset(line);
    return kind == UNKNOWN ? faults : faults | judge_number(line, kind);
}

/* Within a line 3 and 1 come first, as in 01; 12 is "after 1 and before 2". */
static unsigned first_of(unsigned faults)
{
    if (faults & SECOND_KISS_PLACE)
        return SECOND_PLACE;
    if (faults & SECOND_KISS_BAD)
        return SECOND_BAD_LINE;
    if (faults & SECOND_KISS_NAME)
        return SECOND_KISS;
    return faults & SECOND_KISS_LIMIT ? SECOND_LIMIT : SECOND_FINE;
}

/* ---- what a good line says ---- */

/* "present before next, line by line" (reading 21). The row is "placed where the first stood", and its line is "that of its first
   line". */
static void take_row(struct second_kiss *kiss, const struct line *line)
{
    struct second_machine *machine = &kiss->machine;
    int present = number_name(kiss, line->field[1]);
    int next = number_name(kiss, line->field[2]);
    unsigned at = row_of(kiss, line);
    struct second_row *row = &machine->row[at];
    if (at == machine->rows) {
        machine->rows++;
        row->line = line->number;
        row->group = 0;
        row->next = next;
        memset(row->outputs, '0', sizeof row->outputs);
        memcpy(row->input, line->field[0].at, machine->inputs);
        memcpy(row->outputs, line->field[3].at, machine->outputs);
        kiss->whole[at] = false;
    }
    if (present == SECOND_NO_STATE)
        kiss->whole[at] = true;
    else
        row->group |= (uint64_t)1 << present;
    kiss->lines++;
}

static void take_header(struct second_kiss *kiss, const struct line *line, unsigned kind)
{
    kiss->header_line[kind] = line->number;
    if (kind == SECOND_KISS_R)
        number_name(kiss, line->field[1]); /* "The `.r` name, if there is one, becomes state 0": headers stand before the rows */
    else
        read_number(line->field[1], &kiss->header_number[kind]);
    if (kind == SECOND_KISS_I)
        kiss->machine.inputs = kiss->header_number[kind];
    if (kind == SECOND_KISS_O)
        kiss->machine.outputs = kiss->header_number[kind];
}

/* ---- the text ---- */

/* "12 too for a `.s` or `.p` that disagrees with the lines, at that line, the earlier first, after all lines". `.s` counts the
   name of `.r` too, used or not; "`.p` counts row lines before joining" (reading 21). */
static struct second_refusal compare_counts(const struct second_kiss *kiss)
{
    unsigned states = kiss->header_line[SECOND_KISS_S];
    unsigned lines = kiss->header_line[SECOND_KISS_P];
    bool wrong_states = states != 0 && kiss->header_number[SECOND_KISS_S] != kiss->names;
    bool wrong_lines = lines != 0 && kiss->header_number[SECOND_KISS_P] != kiss->lines;
    if (wrong_states && (!wrong_lines || states < lines))
        return refuse(SECOND_KISS, states);
    if (wrong_lines)
        return refuse(SECOND_KISS, lines);
    return refuse(SECOND_FINE, 0);
}

/* "The width is 0", and "KISS2 has no fifth number: it drops" (reading 24). "A present `*` takes in states named later"
   (reading 21). */
static void finish(struct second_kiss *kiss)
{
    struct second_machine *machine = &kiss->machine;
    machine->states = kiss->names;
    machine->width = 0;
    machine->keep = 0;
    machine->cover_rows = machine->rows;
    for (unsigned row = 0; row < machine->rows; row++)
        if (kiss->whole[row])
            machine->row[row].group = second_all_states(machine->states);
}

static void clear(struct second_kiss *kiss)
{
    struct second_machine *machine = &kiss->machine;
    machine->inputs = 0;
    machine->outputs = 0;
    machine->moore = false;
    machine->told = 0;
    machine->rows = 0;
    machine->cover_rows = 0;
    machine->dichotomies = 0;
    memset(kiss->header_line, 0, sizeof kiss->header_line);
    memset(kiss->header_number, 0, sizeof kiss->header_number);
    kiss->lines = 0;
    kiss->names = 0;
    kiss->faults = 0;
}

/* Over 65,536 bytes is 2 at line 0; then the lines from the top; "3 for no `.e`, bytes after it", at the line where they begin or
   one past the last; then `.s` and `.p`. */
struct second_refusal second_kiss_read(const uint8_t *text, size_t length, struct second_kiss *kiss)
{
    size_t at = 0;
    unsigned number = 1;
    bool at_end = false;
    clear(kiss);
    if (length > SECOND_BYTES)
        return refuse(SECOND_LIMIT, 0);
    for (; at < length; number++) {
        if (at_end)
            return refuse(SECOND_PLACE, number);
        struct line line = take_line(text, length, &at, number);
        unsigned kind = kind_of(&line);
        kiss->faults = judge(kiss, &line, kind);
        if (kiss->faults != 0)
            return refuse(first_of(kiss->faults), number);
        if (kind == ROW)
            take_row(kiss, &line);
        else if (kind == END)
            at_end = true;
        else
            take_header(kiss, &line, kind);
    }
    if (!at_end)
        return refuse(SECOND_PLACE, number);
    finish(kiss);
    return compare_counts(kiss);
}

/* "Demands 2 and 3 read over the listing so made": the machine alone. */
static struct second_refusal read_machine(const uint8_t *text, size_t length, struct second_machine *machine)
{
    static struct second_kiss kiss;
    struct second_refusal refusal = second_kiss_read(text, length, &kiss);
    *machine = kiss.machine;
    return refusal;
}

int64_t second_kiss_report(const uint8_t *text, size_t text_length, uint8_t *out, size_t out_length)
{
    return second_report_of(read_machine, text, text_length, out, out_length);
}

int64_t second_kiss_cover(const uint8_t *text, size_t text_length, uint8_t *out, size_t out_length)
{
    return second_cover_of(read_machine, text, text_length, out, out_length);
}
