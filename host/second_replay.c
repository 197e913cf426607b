/* The second encoder's replay of a recorded run (02, request 08): the symbolic machine is stepped by the rows of the listing, and the
   encoded one by the text of the cover, each apart from the other. */
#include "second.h"

/* The steps as they are printed. */
struct text {
    size_t length;
    uint8_t bytes[SECOND_REPLAY_TEXT];
};

/* A field of a line of the run. */
struct field {
    const uint8_t *at;
    size_t length;
};

/* A line of the run, split; the third field stands for all behind the second. */
struct line {
    struct field field[3];
    unsigned fields;
    bool ended;
};

/* Where both machines stand. The code has no place where there are no bits. */
struct present {
    unsigned state;
    char code[SECOND_WIDTH];
};

/* What is replayed: the machine as it was read, its code, and its cover as text. */
static struct second_machine machine;
static struct second_code code;
static uint8_t cover[SECOND_TEXT];

static void put_byte(struct text *text, char byte)
{
    text->bytes[text->length] = (uint8_t)byte;
    text->length++;
}

static void put_number(struct text *text, unsigned number)
{
    if (number >= 10)
        put_number(text, number / 10);
    put_byte(text, (char)('0' + number % 10));
}

static void put_bytes(struct text *text, const char *bytes, size_t length)
{
    for (size_t at = 0; at < length; at++)
        put_byte(text, bytes[at]);
}

/* ---- the listing ---- */

/* "the listing's own and 9 come first": the order of 01, as the cover has it. */
static struct second_refusal find(const uint8_t *listing, size_t length, struct second_machine *read,
                                  struct second_requirements *requirements, struct second_code *found)
{
    struct second_refusal unmet = {SECOND_UNMET, 0};
    struct second_refusal refusal = second_read_lines(listing, length, read);
    if (refusal.number == SECOND_FINE)
        refusal = second_find_conflict(read);
    if (refusal.number != SECOND_FINE)
        return refusal;
    second_draw_up(read, requirements);
    refusal = second_build_code(requirements, read->states, read->width, found);
    for (unsigned r = 0; refusal.number == SECOND_FINE && r < requirements->pairs_groups; r++)
        if (second_met_by(requirements->list[r], found) == SECOND_NO_BIT)
            refusal = unmet;
    machine = *read;
    code = *found;
    return refusal;
}

/* ---- the lines of the run ---- */

/* The line at *at, behind which *at then stands; every space parts two fields (reading 3). */
static struct line take_line(const uint8_t *run, size_t length, size_t *at)
{
    struct line line = {{{run + *at, 0}, {NULL, 0}, {NULL, 0}}, 1, false};
    while (*at < length) {
        const uint8_t *byte = run + *at;
        (*at)++;
        if (*byte == '\n') {
            line.ended = true;
            return line;
        }
        if (*byte == ' ' && line.fields < 3) {
            line.field[line.fields].at = byte + 1;
            line.fields++;
        } else {
            line.field[line.fields - 1].length++;
        }
    }
    return line;
}

/* A good line has this mark and one field more, and ends in LF. */
static bool is_line_of(const struct line *line, const char *mark)
{
    const struct field *first = &line->field[0];
    return line->ended && line->fields == 2 && first->length == 2 && memcmp(first->at, mark, 2) == 0;
}

/* "`SS`'s number is written as in `MC`" (reading 25): one to four digits, no leading zero except `0` itself; "a state not below n is
   1". */
static bool read_start(const struct line *line, unsigned *state)
{
    struct field field = line->field[1];
    if (!is_line_of(line, "SS") || field.length < 1 || field.length > 4)
        return false;
    if (field.length > 1 && field.at[0] == '0')
        return false;
    *state = 0;
    for (size_t at = 0; at < field.length; at++) {
        if (field.at[at] < '0' || field.at[at] > '9')
            return false;
        *state = *state * 10 + (field.at[at] - '0');
    }
    return *state < machine.states;
}

/* "`IN vector` of `0` and `1`", as many as the machine has inputs. */
static bool is_input(const struct line *line)
{
    struct field field = line->field[1];
    if (!is_line_of(line, "IN") || field.length != machine.inputs)
        return false;
    for (size_t at = 0; at < field.length; at++)
        if (field.at[at] != '0' && field.at[at] != '1')
            return false;
    return true;
}

/* ---- the symbolic machine ---- */

/* A row fires where its input has the vector and its group the state; an added row of a Moore machine so too. */
static bool fires(const struct second_row *row, unsigned state, const uint8_t *vector)
{
    for (unsigned place = 0; place < machine.inputs; place++)
        if (row->input[place] != '-' && row->input[place] != vector[place])
            return false;
    return row->group >> state & 1;
}

/* The next state that a firing row names, or SECOND_NO_STATE: no two name different ones (6). */
static int next_of(unsigned state, const uint8_t *vector)
{
    for (unsigned at = 0; at < machine.rows; at++)
        if (fires(&machine.row[at], state, vector) && machine.row[at].next != SECOND_NO_STATE)
            return machine.row[at].next;
    return SECOND_NO_STATE;
}

/* 02, request 02: "a listing's output now means 1 if a firing row says 1; free if none says 1 and some firing row says dash;
   otherwise 0." */
static char output_of(unsigned state, const uint8_t *vector, unsigned place)
{
    char means = '0';
    for (unsigned at = 0; at < machine.cover_rows; at++) {
        const struct second_row *row = &machine.row[at];
        if (!fires(row, state, vector))
            continue;
        if (row->outputs[place] == '1')
            return '1';
        if (row->outputs[place] == '-')
            means = '-';
    }
    return means;
}

/* ---- the cover's text ---- */

/* The first row of the cover's text, behind its four header lines. */
static const uint8_t *first_row(void)
{
    const uint8_t *at = cover;
    for (unsigned lines = 0; lines < 4; lines++) {
        while (*at != '\n')
            at++;
        at++;
    }
    return at;
}

/* A row of the text fires where its first field has the vector and, behind it, the present code. */
static bool text_fires(const uint8_t *row, const uint8_t *vector, const char *present)
{
    for (unsigned place = 0; place < machine.inputs; place++)
        if (row[place] != '-' && row[place] != vector[place])
            return false;
    row += machine.inputs;
    for (unsigned place = 0; place < code.bits; place++)
        if (row[place] != '-' && row[place] != (uint8_t)present[place])
            return false;
    return true;
}

/* The next code: 1 where a firing row says 1, else 0 ("silence on the next-state lines reads as state 0"). */
static void step_text(char present[SECOND_WIDTH], const uint8_t *vector)
{
    char next[SECOND_WIDTH];
    size_t first = machine.inputs + code.bits + 1; /* where a row's second field begins, and behind it how long the row is */
    size_t length = first + code.bits + machine.outputs + 1;
    memset(next, '0', sizeof next);
    for (const uint8_t *row = first_row(); *row != '.'; row += length)
        if (text_fires(row, vector, present))
            for (unsigned place = 0; place < code.bits; place++)
                if (row[first + place] == '1')
                    next[place] = '1';
    memcpy(present, next, sizeof next);
}

/* ---- the run ---- */

/* "`ST state code outputs`, with the state and code after it"; no bits print a dash; the outputs are those of the state before (reading
   25). */
static void put_step(struct text *text, const struct present *after, const char *outputs)
{
    put_bytes(text, "ST ", 3);
    put_number(text, after->state);
    put_byte(text, ' ');
    put_bytes(text, code.bits == 0 ? "-" : after->code, code.bits == 0 ? 1 : code.bits);
    put_byte(text, ' ');
    put_bytes(text, outputs, machine.outputs);
    put_byte(text, '\n');
}

/* One good `IN` line. Answers whether a firing row names a next state; if none does, nothing moves and nothing is printed. */
static bool step(struct text *text, struct present *present, const uint8_t *vector)
{
    char outputs[SECOND_OUTPUTS];
    int next = next_of(present->state, vector);
    if (next == SECOND_NO_STATE)
        return false;
    for (unsigned place = 0; place < machine.outputs; place++)
        outputs[place] = output_of(present->state, vector, place);
    step_text(present->code, vector);
    present->state = (unsigned)next;
    put_step(text, present, outputs);
    return true;
}

/* "Steps before a refusal stay printed", and it is the last line. */
static void put_refusal(struct text *text, unsigned number, unsigned line)
{
    put_bytes(text, "NO ", 3);
    put_number(text, number);
    put_byte(text, ' ');
    put_number(text, line);
    put_byte(text, '\n');
}

/* The `IN` lines from line 2 on. The 10,001st is "1 if malformed, else 2, before its step is tried" (reading 25). */
static void replay_inputs(struct text *text, struct present *present, const uint8_t *run, size_t length, size_t at)
{
    unsigned steps = 0;
    for (unsigned number = 2; at < length; number++) {
        struct line line = take_line(run, length, &at);
        unsigned fault = SECOND_FINE;
        if (!is_input(&line))
            fault = SECOND_BAD_LINE;
        else if (steps == SECOND_STEPS)
            fault = SECOND_LIMIT;
        else if (!step(text, present, line.field[1].at))
            fault = SECOND_STUCK;
        if (fault != SECOND_FINE) {
            put_refusal(text, fault, number);
            return;
        }
        steps++;
    }
}

/* "a first line that isn't `SS` or is missing, or a state not below n is 1 at its line" */
static void replay(struct text *text, const uint8_t *run, size_t length)
{
    struct present present;
    size_t at = 0;
    struct line line = take_line(run, length, &at);
    text->length = 0;
    if (!read_start(&line, &present.state)) {
        put_refusal(text, SECOND_BAD_LINE, 1);
        return;
    }
    for (unsigned place = 0; place < code.bits; place++)
        present.code[place] = code.bit[place] >> present.state & 1 ? '1' : '0';
    replay_inputs(text, &present, run, length, at);
}

/* A refusal of the listing, or SECOND_FINE and the whole text. */
static int64_t make(const uint8_t *listing, size_t listing_length, const uint8_t *run, size_t run_length, struct text *text)
{
    int64_t covered = second_cover_by(find, listing, listing_length, cover, sizeof cover);
    if (covered < 0)
        return covered;
    replay(text, run, run_length);
    return SECOND_FINE;
}

int64_t second_replay(const uint8_t *listing, size_t listing_length, const uint8_t *run, size_t run_length, uint8_t *out,
                      size_t out_length)
{
    static struct text text;
    int64_t refusal = make(listing, listing_length, run, run_length, &text);
    if (refusal < 0)
        return refusal;
    if (out_length < text.length)
        return -(int64_t)SECOND_NO_ROOM * 100000;
    memcpy(out, text.bytes, text.length);
    return (int64_t)text.length;
}

int64_t second_replay_part(const uint8_t *listing, size_t listing_length, const uint8_t *run, size_t run_length, size_t from,
                           uint8_t *out, size_t out_length)
{
    static struct text text;
    int64_t refusal = make(listing, listing_length, run, run_length, &text);
    return refusal < 0 ? refusal : second_part(text.bytes, text.length, from, out, out_length);
}
