/* What a run of the comparison has seen of Moore machines: the sorts of their covers, and of the lines that are refused because
   they are such machines' or are not, each judged from the listing and the answer alone. */
#include "seen.h"
#include "second.h"

/* Covers: with an added row left out, one left out where the fifth number is 0, all of them; with one that says nothing kept
   where it is 1; with one kept for dashes and no 1, or for a single 1; of a machine without rows, without bits, whose `OU` lines
   are not in the order of the states, of more than 32 states, of 64.
   Refusals: for a state without its line, with rows that clash, and one that bytes after `EN` hide; for the place of an `OU`
   line, good, with a wrong rest, without LF; for its state, its number, its outputs; for a row of the other kind of machine; for
   a second head line of the other kind; and for the numbers of an `MO` line. */
enum sort {
    COVER,
    COVER_LEFT_OUT,
    COVER_FIFTH_0,
    COVER_ALL_LEFT_OUT,
    COVER_KEPT,
    COVER_DASHES,
    COVER_ONE,
    COVER_NO_ROWS,
    COVER_NO_BITS,
    COVER_ANY_ORDER,
    COVER_WIDE,
    COVER_64,
    UNTOLD,
    UNTOLD_CLASH,
    UNTOLD_AFTER_END,
    AGAIN_GOOD,
    AGAIN_SPOILT,
    AGAIN_UNENDED,
    UNDER_MC_GOOD,
    UNDER_MC_SPOILT,
    UNDER_MC_UNENDED,
    FIRST_LINE,
    STATE_N,
    STATE_ABOVE,
    STATE_SPOILT,
    NO_NUMBER,
    OUTPUTS_SHORT,
    OUTPUTS_LONG,
    OUTPUTS_WRONG,
    OUTPUTS_MISSING,
    FIELDS_MORE,
    UNENDED,
    ROW_WITH_OUTPUTS,
    ROW_WITHOUT,
    SECOND_MC,
    SECOND_MO,
    HEAD_BAD,
    HEAD_LIMIT,
    SORTS
};

static struct seen_sort sorts[SORTS] = {
    [COVER] = {"a Moore machine", 1000, 0},
    [COVER_LEFT_OUT] = {"an added row left out", 300, 0},
    [COVER_FIFTH_0] = {"an added row left out for a fifth number 0", 100, 0},
    [COVER_ALL_LEFT_OUT] = {"all added rows left out", 100, 0},
    [COVER_KEPT] = {"an added row kept for a fifth number 1", 100, 0},
    [COVER_DASHES] = {"an added row kept for dashes alone", 100, 0},
    [COVER_ONE] = {"an added row kept for one output", 100, 0},
    [COVER_NO_ROWS] = {"no rows but the added ones", 100, 0},
    [COVER_NO_BITS] = {"no bits", 100, 0},
    [COVER_ANY_ORDER] = {"OU lines out of order", 300, 0},
    [COVER_WIDE] = {"more than 32 states", 100, 0},
    [COVER_64] = {"64 states", 10, 0},
    [UNTOLD] = {"17", 100, 0},
    [UNTOLD_CLASH] = {"17 before 6", 40, 0},
    [UNTOLD_AFTER_END] = {"3 for bytes after EN, before 17", 40, 0},
    [AGAIN_GOOD] = {"3, a second OU", 40, 0},
    [AGAIN_SPOILT] = {"3, a second OU that is wrong", 40, 0},
    [AGAIN_UNENDED] = {"3, a second OU without LF", 40, 0},
    [UNDER_MC_GOOD] = {"3, an OU under MC", 40, 0},
    [UNDER_MC_SPOILT] = {"3, a wrong OU under MC", 40, 0},
    [UNDER_MC_UNENDED] = {"3, an OU under MC without LF", 20, 0},
    [FIRST_LINE] = {"3, an OU on line 1", 40, 0},
    [STATE_N] = {"2, an OU of state n", 40, 0},
    [STATE_ABOVE] = {"2, an OU of a state above n", 40, 0},
    [STATE_SPOILT] = {"1 for an OU, before 2 for its state", 20, 0},
    [NO_NUMBER] = {"1, an OU without a number", 40, 0},
    [OUTPUTS_SHORT] = {"1, outputs too short", 20, 0},
    [OUTPUTS_LONG] = {"1, outputs too long", 20, 0},
    [OUTPUTS_WRONG] = {"1, a wrong character in outputs", 20, 0},
    [OUTPUTS_MISSING] = {"1, no outputs", 20, 0},
    [FIELDS_MORE] = {"1, a field behind the outputs", 20, 0},
    [UNENDED] = {"1, an OU without LF", 40, 0},
    [ROW_WITH_OUTPUTS] = {"1, a row with outputs under MO", 40, 0},
    [ROW_WITHOUT] = {"1, a row without outputs under MC", 40, 0},
    [SECOND_MC] = {"3, an MC under MO", 40, 0},
    [SECOND_MO] = {"3, an MO under MC", 40, 0},
    [HEAD_BAD] = {"1, an MO line", 40, 0},
    [HEAD_LIMIT] = {"2, an MO line", 40, 0},
};

/* ---- lines and fields ---- */

struct piece {
    const uint8_t *at;
    size_t length;
    bool ended; /* a line that has its LF */
};

/* The line of this number, from 1; of no length if there is none. */
static struct piece line_of(const uint8_t *listing, size_t length, unsigned number)
{
    size_t at = 0;
    for (; number > 1 && at < length; at++)
        number -= listing[at] == '\n';
    struct piece line = {listing + at, 0, false};
    while (at + line.length < length && line.at[line.length] != '\n')
        line.length++;
    line.ended = at + line.length < length;
    return line;
}

static unsigned field_number(struct piece line)
{
    unsigned fields = 1;
    for (size_t at = 0; at < line.length; at++)
        fields += line.at[at] == ' ';
    return fields;
}

/* The field of this number, the mark being 0; it must be there. */
static struct piece field_of(struct piece line, unsigned number)
{
    struct piece field = {line.at, 0, false};
    for (; number > 0; field.at++)
        number -= *field.at == ' ';
    while (field.at + field.length < line.at + line.length && field.at[field.length] != ' ')
        field.length++;
    return field;
}

static bool is_word(struct piece field, const char *word)
{
    return field.length == strlen(word) && memcmp(field.at, word, field.length) == 0;
}

static bool has_mark(struct piece line, const char *mark)
{
    return is_word(field_of(line, 0), mark);
}

static bool has_form(struct piece field, size_t length, const char *allowed)
{
    bool good = field.length == length;
    for (size_t at = 0; at < field.length; at++) {
        bool known = false;
        for (const char *one = allowed; *one != 0; one++)
            known = known || field.at[at] == (uint8_t)*one;
        good = good && known;
    }
    return good;
}

static bool is_number(struct piece field, unsigned *number)
{
    *number = 0;
    for (size_t at = 0; at < field.length && at < 4; at++)
        *number = *number * 10 + (unsigned)(field.at[at] - '0');
    return field.length >= 1 && field.length <= 4 && has_form(field, field.length, "0123456789") &&
           (field.length == 1 || field.at[0] != '0');
}

/* ---- covers ---- */

/* Notes of which sorts an added row is, and answers whether the cover leaves it out. */
static bool sort_added(const struct second_machine *machine, const struct second_row *row, bool sort[SORTS])
{
    unsigned ones = 0;
    unsigned dashes = 0;
    for (unsigned place = 0; place < machine->outputs; place++) {
        ones += row->outputs[place] == '1';
        dashes += row->outputs[place] == '-';
    }
    bool nothing = ones + dashes == 0;
    sort[COVER_KEPT] |= machine->keep == 1 && nothing;
    sort[COVER_DASHES] |= machine->keep == 0 && ones == 0 && dashes > 0;
    sort[COVER_ONE] |= machine->keep == 0 && ones == 1 && dashes == 0;
    return machine->keep == 0 && nothing;
}

/* Whether the `OU` lines stand in another order than the states. */
static bool in_any_order(const uint8_t *listing, size_t length)
{
    unsigned next = 0;
    bool any = false;
    for (const uint8_t *at = listing; at < listing + length;) {
        struct piece line = line_of(at, (size_t)(listing + length - at), 1);
        unsigned state = 0;
        if (has_mark(line, "OU") && is_number(field_of(line, 1), &state)) {
            any = any || state != next;
            next++;
        }
        at += line.length + 1;
    }
    return any;
}

static void sort_cover(const uint8_t *listing, size_t length, const struct second_machine *machine, bool sort[SORTS])
{
    unsigned left_out = 0;
    for (unsigned state = 0; state < machine->states; state++)
        left_out += sort_added(machine, &machine->row[machine->rows + state], sort);
    sort[COVER] = true;
    sort[COVER_LEFT_OUT] = left_out > 0;
    sort[COVER_FIFTH_0] = left_out > 0 && field_number(line_of(listing, length, 1)) == 6;
    sort[COVER_ALL_LEFT_OUT] = left_out == machine->states;
    sort[COVER_NO_ROWS] = machine->rows == 0;
    sort[COVER_NO_BITS] = machine->states == 1 && machine->dichotomies == 0;
    sort[COVER_ANY_ORDER] = in_any_order(listing, length);
    sort[COVER_WIDE] = machine->states > 32;
    sort[COVER_64] = machine->states == 64;
}

/* ---- refusals ---- */

static bool is_good_outputs(struct piece line, const struct second_machine *machine)
{
    unsigned state;
    return field_number(line) == 3 && is_number(field_of(line, 1), &state) &&
           has_form(field_of(line, 2), machine->outputs, "01-");
}

/* Of an `OU` line that is refused 1. */
static enum sort sort_bad(struct piece line, const struct second_machine *machine)
{
    unsigned state;
    unsigned fields = field_number(line);
    if (!line.ended)
        return UNENDED;
    if (fields < 2 || !is_number(field_of(line, 1), &state))
        return NO_NUMBER;
    if (state >= machine->states)
        return STATE_SPOILT;
    if (fields != 3)
        return fields < 3 ? OUTPUTS_MISSING : FIELDS_MORE;
    struct piece outputs = field_of(line, 2);
    if (outputs.length != machine->outputs)
        return outputs.length < machine->outputs ? OUTPUTS_SHORT : OUTPUTS_LONG;
    return OUTPUTS_WRONG;
}

/* Of an `OU` line that is refused 3. */
static enum sort sort_place(struct piece line, unsigned at, const struct second_machine *machine)
{
    if (at == 1)
        return FIRST_LINE;
    if (!line.ended)
        return machine->moore ? AGAIN_UNENDED : UNDER_MC_UNENDED;
    if (is_good_outputs(line, machine))
        return machine->moore ? AGAIN_GOOD : UNDER_MC_GOOD;
    return machine->moore ? AGAIN_SPOILT : UNDER_MC_SPOILT;
}

static enum sort sort_outputs_line(struct piece line, unsigned at, unsigned number, const struct second_machine *machine)
{
    unsigned state = 0;
    if (number == SECOND_PLACE)
        return sort_place(line, at, machine);
    if (number == SECOND_BAD_LINE)
        return sort_bad(line, machine);
    return is_number(field_of(line, 1), &state) && state == machine->states ? STATE_N : STATE_ABOVE;
}

/* Of a row that is refused 1: SORTS if it would not be a good one of the other kind of machine. */
static enum sort sort_row(struct piece line, const struct second_machine *machine)
{
    unsigned fields = field_number(line);
    if (!line.ended || fields != (machine->moore ? 5 : 4))
        return SORTS;
    if (!has_form(field_of(line, 1), machine->inputs, "01-") || !has_form(field_of(line, 2), machine->states, "01") ||
        !has_form(field_of(line, 3), machine->states, "01"))
        return SORTS;
    if (!machine->moore)
        return ROW_WITHOUT;
    return has_form(field_of(line, 4), machine->outputs, "01-") ? ROW_WITH_OUTPUTS : SORTS;
}

/* Of a line that is refused, SORTS if it is none of these. */
static enum sort sort_line(struct piece line, unsigned at, unsigned number, const struct second_machine *machine)
{
    if (has_mark(line, "OU"))
        return sort_outputs_line(line, at, number, machine);
    if (has_mark(line, "PT") && number == SECOND_BAD_LINE && at > 1)
        return sort_row(line, machine);
    if (has_mark(line, "MO") && at == 1 && line.ended)
        return number == SECOND_BAD_LINE ? HEAD_BAD : HEAD_LIMIT;
    if (number == SECOND_PLACE && machine->moore && has_mark(line, "MC"))
        return SECOND_MC;
    if (number == SECOND_PLACE && !machine->moore && has_mark(line, "MO"))
        return SECOND_MO;
    return SORTS;
}

static void sort_refusal(const uint8_t *listing, size_t length, struct second_refusal refusal,
                         const struct second_machine *machine, bool sort[SORTS])
{
    struct piece before = line_of(listing, length, refusal.line - 1);
    bool after_end = refusal.number == SECOND_PLACE && refusal.line > 2 && is_word(before, "EN");
    bool untold = refusal.line > 1 && machine->moore && machine->told != second_all_states(machine->states);
    sort[UNTOLD] = refusal.number == SECOND_UNTOLD;
    sort[UNTOLD_CLASH] = refusal.number == SECOND_UNTOLD && second_find_conflict(machine).number != SECOND_FINE;
    sort[UNTOLD_AFTER_END] = after_end && untold;
    if (refusal.number > SECOND_PLACE || after_end)
        return;
    enum sort one = sort_line(line_of(listing, length, refusal.line), refusal.line, refusal.number, machine);
    if (one != SORTS)
        sort[one] = true;
}

void seen_moore(const uint8_t *listing, size_t length, bool has_cover)
{
    static struct second_machine machine;
    bool sort[SORTS] = {false};
    struct second_refusal refusal = second_read_lines(listing, length, &machine);
    if (has_cover && machine.moore)
        sort_cover(listing, length, &machine, sort);
    if (refusal.number != SECOND_FINE && refusal.line > 0)
        sort_refusal(listing, length, refusal, &machine, sort);
    for (unsigned at = 0; at < SORTS; at++)
        sorts[at].seen += sort[at];
}

void seen_moore_print(void)
{
    seen_print_sorts("covers of", sorts, COVER, UNTOLD);
    seen_print_sorts("refused", sorts, UNTOLD, SORTS);
}

bool seen_moore_each(void)
{
    return seen_enough(sorts, SORTS);
}
