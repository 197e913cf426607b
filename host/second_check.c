/* The second encoder's check of a code and a cover from elsewhere (02, request 10), the plain way: it reads both, and runs every
   input in every state. */
#include "second.h"

/* The most fields that a line has: `SC`, its number and its code. */
#define FIELDS 3

struct field {
    const uint8_t *at;
    size_t length;
};

/* A line without its LF; one that is not there has not ended either. Fields that are not there are empty. */
struct line {
    bool ended;
    size_t fields;
    struct field field[FIELDS];
};

static struct second_refusal refuse(unsigned number, unsigned line)
{
    struct second_refusal refusal = {number, line};
    return refusal;
}

/* Text as in 01: the line at *at, which then stands behind it. Every space parts two fields (reading 3). */
static struct line take_line(const uint8_t *text, size_t length, size_t *at)
{
    struct line line = {.fields = 1};
    line.field[0].at = text + *at;
    while (*at < length) {
        uint8_t byte = text[*at];
        (*at)++;
        if (byte == '\n') {
            line.ended = true;
            return line;
        }
        if (byte == ' ') {
            if (line.fields < FIELDS)
                line.field[line.fields].at = text + *at;
            line.fields++;
        } else if (line.fields <= FIELDS) {
            line.field[line.fields - 1].length++;
        }
    }
    return line;
}

static bool is_word(struct field field, const char *word)
{
    return field.length == strlen(word) && memcmp(field.at, word, field.length) == 0;
}

/* "Each number is one to four digits, no leading zero except `0` itself." */
static bool read_number(struct field field, unsigned *number)
{
    *number = 0;
    if (field.length < 1 || field.length > 4 || (field.length > 1 && field.at[0] == '0'))
        return false;
    for (size_t at = 0; at < field.length; at++) {
        if (field.at[at] < '0' || field.at[at] > '9')
            return false;
        *number = *number * 10 + (field.at[at] - '0');
    }
    return true;
}

/* ---- the codes ---- */

/* "`SC`'s number is written as in `MC` and is the line's state, else 1" (reading 27). */
static bool is_code_line(const struct line *line, unsigned state)
{
    unsigned number;
    return line->ended && line->fields == 3 && is_word(line->field[0], "SC") && read_number(line->field[1], &number) &&
           number == state;
}

/* "a code of no bits is one dash"; else 1 to 64 of `0 1`: "over 64 bits .. is bad". */
static bool read_code(struct field field, unsigned state, unsigned *bits, struct second_code *code)
{
    *bits = 0;
    if (is_word(field, "-"))
        return true;
    if (field.length < 1 || field.length > SECOND_WIDTH)
        return false;
    for (size_t at = 0; at < field.length; at++) {
        if (field.at[at] != '0' && field.at[at] != '1')
            return false;
        if (state == 0)
            code->bit[at] = 0;
        code->bit[at] |= (uint64_t)(field.at[at] - '0') << state;
    }
    *bits = (unsigned)field.length;
    return true;
}

/* "`SC` lines in state order"; "a bad, missing or extra line of codes (over 64 bits or unlike the first in length is bad) .. is 1 at
   its line there": a missing one at one past the last, an extra one at n + 1 (reading 27). */
struct second_refusal second_read_codes(const uint8_t *text, size_t length, unsigned states, struct second_code *code)
{
    size_t at = 0;
    code->bits = 0;
    for (unsigned state = 0; state < states; state++) {
        unsigned bits;
        struct line line = take_line(text, length, &at);
        if (!is_code_line(&line, state) || !read_code(line.field[2], state, &bits, code))
            return refuse(SECOND_BAD_LINE, state + 1);
        if (state > 0 && bits != code->bits)
            return refuse(SECOND_BAD_LINE, state + 1);
        code->bits = bits;
    }
    if (at < length)
        return refuse(SECOND_BAD_LINE, states + 1);
    return refuse(SECOND_FINE, 0);
}

/* ---- the cover ---- */

/* A line of a mark and a number, such as `.i 5`; no number is too large here. */
static bool is_number_line(const struct line *line, const char *mark, unsigned *number)
{
    return line->ended && line->fields == 2 && is_word(line->field[0], mark) && read_number(line->field[1], number);
}

/* "`.type fd` is these bytes" (reading 27). */
static bool is_type_line(const struct line *line)
{
    return line->ended && line->fields == 2 && is_word(line->field[0], ".type") && is_word(line->field[1], "fd");
}

static bool has_form(struct field field, size_t length)
{
    if (length == 0 || field.length != length)
        return false;
    for (size_t at = 0; at < length; at++)
        if (field.at[at] != '0' && field.at[at] != '1' && field.at[at] != '-')
            return false;
    return true;
}

/* "A row's lengths are those of the cover's own `.i` and `.o`; .. under `.i 0` or `.o 0` a row has an empty field, so it is 1"
   (reading 27). */
static bool is_row(const struct line *line, const struct second_pla *pla)
{
    return line->ended && line->fields == 2 && has_form(line->field[0], pla->inputs) && has_form(line->field[1], pla->outputs);
}

/* "`.i`, `.o`, optional `.type fd`, `.p`", each on the line at *at, of number *number. */
static bool read_pla_head(const uint8_t *text, size_t length, size_t *at, unsigned *number, struct second_pla *pla)
{
    struct line line = take_line(text, length, at);
    *number = 1;
    if (!is_number_line(&line, ".i", &pla->inputs))
        return false;
    *number = 2;
    line = take_line(text, length, at);
    if (!is_number_line(&line, ".o", &pla->outputs))
        return false;
    *number = 3;
    line = take_line(text, length, at);
    pla->typed = is_type_line(&line);
    if (pla->typed) {
        *number = 4;
        line = take_line(text, length, at);
    }
    return is_number_line(&line, ".p", &pla->said);
}

/* "that many rows, `.e`, in this order; `.p` too high is 1 at the `.e` line, too low 1 at the first row too many"; "257th row: 1 if
   malformed or one more than `.p` says, else 2" (reading 27). */
struct second_refusal second_read_pla(const uint8_t *text, size_t length, struct second_pla *pla)
{
    size_t at = 0;
    unsigned number;
    struct line line;
    pla->rows = 0;
    if (!read_pla_head(text, length, &at, &number, pla))
        return refuse(SECOND_BAD_LINE, number);
    for (unsigned row = 0; row < pla->said; row++) {
        number++;
        line = take_line(text, length, &at);
        if (!is_row(&line, pla))
            return refuse(SECOND_BAD_LINE, number);
        if (row == SECOND_PLA_ROWS)
            return refuse(SECOND_LIMIT, number);
        pla->row[row].input = line.field[0].at;
        pla->row[row].output = line.field[1].at;
        pla->rows++;
    }
    line = take_line(text, length, &at);
    number++;
    if (!line.ended || line.fields != 1 || !is_word(line.field[0], ".e"))
        return refuse(SECOND_BAD_LINE, number);
    return at < length ? refuse(SECOND_BAD_LINE, number + 1) : refuse(SECOND_FINE, 0);
}

/* "15 for a cover whose `.i` or `.o` doesn't fit the listing and codes, with its line", "`.i` first" (reading 27). */
static struct second_refusal find_misfit(const struct second_machine *machine, const struct second_code *code,
                                         const struct second_pla *pla)
{
    if (pla->inputs != machine->inputs + code->bits)
        return refuse(SECOND_MISFIT, 1);
    if (pla->outputs != code->bits + machine->outputs)
        return refuse(SECOND_MISFIT, 2);
    return refuse(SECOND_FINE, 0);
}

/* "the listing's own first, without 7 and 9"; codes; cover; "15 .. after 1". */
struct second_refusal second_check_read(const struct second_check_given *given, struct second_checked *checked)
{
    struct second_refusal refusal = second_read_lines(given->listing, given->listing_length, &checked->machine);
    if (refusal.number == SECOND_FINE)
        refusal = second_find_conflict(&checked->machine);
    if (refusal.number == SECOND_FINE)
        refusal = second_read_codes(given->codes, given->codes_length, checked->machine.states, &checked->code);
    if (refusal.number == SECOND_FINE)
        refusal = second_read_pla(given->cover, given->cover_length, &checked->pla);
    if (refusal.number == SECOND_FINE)
        refusal = find_misfit(&checked->machine, &checked->code, &checked->pla);
    return refusal;
}

/* ---- agreement ---- */

/* Whether an input, "read as a binary number", the leftmost input the highest digit, is in a row's first characters. */
static bool takes_input(const uint8_t *characters, unsigned inputs, unsigned input)
{
    for (unsigned place = 0; place < inputs; place++) {
        unsigned digit = input >> (inputs - 1 - place) & 1;
        if (characters[place] == (digit ? '0' : '1'))
            return false;
    }
    return true;
}

/* Whether the state's code is in a cover row's characters behind the inputs. */
static bool takes_state(const uint8_t *characters, const struct second_code *code, unsigned state)
{
    for (unsigned place = 0; place < code->bits; place++)
        if (characters[place] == (code->bit[place] >> state & 1 ? '0' : '1'))
            return false;
    return true;
}

/* What one place of the outputs asks or gives, over the rows that fire: some say 1, some say dash. */
static void note_places(const uint8_t *characters, unsigned places, bool *one, bool *dash)
{
    for (unsigned place = 0; place < places; place++) {
        one[place] = one[place] || characters[place] == '1';
        dash[place] = dash[place] || characters[place] == '-';
    }
}

/* What the listing wants of a state at an input: 02, request 02: an output is "1 if a firing row says 1; free if none says 1 and some
   firing row says dash; otherwise 0"; the next code is that of the next state, or free "where the listing names no next state". */
void second_want(const struct second_machine *machine, const struct second_code *code, unsigned state, unsigned input,
                 char want[SECOND_PLA_PLACES])
{
    bool one[SECOND_OUTPUTS] = {false}, dash[SECOND_OUTPUTS] = {false};
    int next = SECOND_NO_STATE;
    for (unsigned at = 0; at < machine->cover_rows; at++) {
        const struct second_row *row = &machine->row[at];
        if (!(row->group >> state & 1) || !takes_input(row->input, machine->inputs, input))
            continue;
        note_places(row->outputs, machine->outputs, one, dash);
        if (row->next != SECOND_NO_STATE)
            next = row->next;
    }
    for (unsigned place = 0; place < code->bits; place++)
        want[place] = next == SECOND_NO_STATE ? '-' : code->bit[place] >> next & 1 ? '1' : '0';
    for (unsigned place = 0; place < machine->outputs; place++)
        want[code->bits + place] = one[place] ? '1' : dash[place] ? '-' : '0';
}

/* "where an output or a bit of the next code is 1 a firing row must say 1 and none a dash; where it is 0 none may say 1 or dash; a free
   output may be anything, and so may the next code where the listing names no next state." */
bool second_agrees(char want, bool one, bool dash)
{
    if (want == '1')
        return one && !dash;
    if (want == '0')
        return !one && !dash;
    return true;
}

/* What the cover's firing rows say of a state at an input: `rows` are those that take the state. */
static bool agrees_at(const struct second_checked *checked, const unsigned *rows, unsigned number, unsigned state, unsigned input)
{
    const struct second_machine *machine = &checked->machine;
    const struct second_code *code = &checked->code;
    unsigned places = code->bits + machine->outputs;
    bool one[SECOND_PLA_PLACES] = {false}, dash[SECOND_PLA_PLACES] = {false};
    char want[SECOND_PLA_PLACES];
    for (unsigned at = 0; at < number; at++) {
        const struct second_pla_row *row = &checked->pla.row[rows[at]];
        if (takes_input(row->input, machine->inputs, input))
            note_places(row->output, places, one, dash);
    }
    second_want(machine, code, state, input, want);
    for (unsigned place = 0; place < places; place++)
        if (!second_agrees(want[place], one[place], dash[place]))
            return false;
    return true;
}

/* "the lowest state where it fails and for it the first such input" */
static bool find_failure(const struct second_checked *checked, unsigned *state, unsigned *input)
{
    unsigned rows[SECOND_PLA_ROWS];
    for (*state = 0; *state < checked->machine.states; (*state)++) {
        unsigned number = 0;
        for (unsigned row = 0; row < checked->pla.rows; row++)
            if (takes_state(checked->pla.row[row].input + checked->machine.inputs, &checked->code, *state))
                rows[number++] = row;
        for (*input = 0; *input < 1u << checked->machine.inputs; (*input)++)
            if (!agrees_at(checked, rows, number, *state, *input))
                return true;
    }
    return false;
}

/* "print `UN` and the lowest unmet pair or group requirement"; "`DI` requirements and the width aren't judged". */
static bool find_unmet(const struct second_checked *checked, unsigned *unmet)
{
    static struct second_requirements requirements;
    second_draw_up(&checked->machine, &requirements);
    for (*unmet = 0; *unmet < requirements.pairs_groups; (*unmet)++)
        if (second_met_by(requirements.list[*unmet], &checked->code) == SECOND_NO_BIT)
            return true;
    return false;
}

/* ---- the answer ---- */

static void put_number(uint8_t *text, size_t *length, unsigned number)
{
    if (number >= 10)
        put_number(text, length, number / 10);
    text[(*length)++] = (uint8_t)('0' + number % 10);
}

/* A mark, its numbers and LF. */
static size_t put_answer(uint8_t *text, const char *mark, const unsigned *numbers, unsigned number)
{
    size_t length = 2;
    memcpy(text, mark, 2);
    for (unsigned at = 0; at < number; at++) {
        text[length++] = ' ';
        put_number(text, &length, numbers[at]);
    }
    text[length++] = '\n';
    return length;
}

int64_t second_check(const uint8_t *listing, size_t listing_length, const uint8_t *codes, size_t codes_length,
                     const uint8_t *cover, size_t cover_length, uint8_t *out, size_t out_length)
{
    static struct second_checked checked;
    struct second_check_given given = {listing, listing_length, codes, codes_length, cover, cover_length};
    uint8_t text[32];
    unsigned numbers[2];
    size_t length;
    struct second_refusal refusal = second_check_read(&given, &checked);
    if (refusal.number != SECOND_FINE)
        return -((int64_t)refusal.number * 100000 + (int64_t)refusal.line);
    if (find_unmet(&checked, &numbers[0]))
        length = put_answer(text, "UN", numbers, 1);
    else if (find_failure(&checked, &numbers[0], &numbers[1]))
        length = put_answer(text, "AT", numbers, 2);
    else
        length = put_answer(text, "OK", numbers, 0);
    if (out_length < length)
        return -(int64_t)SECOND_NO_ROOM * 100000;
    memcpy(out, text, length);
    return (int64_t)length;
}
