/* What a run of the comparison has seen of codes and covers from elsewhere, each judged from the texts and the answer, whatever change or
   damage was meant. */
#include "seen_check.h"
#include "second.h"
#include "seen.h"

/* `OK`; `UN`; `AT` by what is wrong there, in an output and in a bit of the next code; refusals by why; orders: what would have been
   refused or judged next. */
enum sort {
    OK_OWN,
    OK_LEAST,
    OK_MOORE,
    OK_FLOW,
    OK_LEFT_OUT,
    OK_KEPT,
    OK_UNTYPED,
    OK_OTHER_ROWS,
    OK_ONE_HOT,
    OK_COUNTING,
    OK_TURNED,
    OK_NO_BITS,
    OK_64_BITS,
    OK_256_ROWS,
    OK_16_INPUTS,
    OK_DASHES,
    OK_FREE_OUTPUT,
    OK_FREE_NEXT,
    OK_UNMET_DI,
    OK_WIDTH,
    UN_0,
    UN_PAIR,
    UN_GROUP,
    UN_NO_BITS,
    AT_MISSING,
    AT_DASH,
    AT_DASH_BESIDE,
    AT_ONE,
    AT_ONE_DASH,
    AT_NEXT_MISSING,
    AT_NEXT_DASH,
    AT_NEXT_DASH_BESIDE,
    AT_NEXT_ONE,
    AT_NEXT_ONE_DASH,
    AT_NO_ROW,
    AT_STATE_0,
    AT_LATER_STATE,
    AT_INPUT_0,
    AT_LAST_INPUT,
    AT_16_INPUTS,
    AT_64_STATES,
    AT_UNTYPED,
    AT_MOORE,
    AT_FLOW,
    LISTING_BAD,
    LISTING_CLASH,
    CODES_MISSING,
    CODES_EXTRA,
    CODES_UNENDED,
    CODES_FIELDS,
    CODES_MARK,
    CODES_NO_NUMBER,
    CODES_OTHER_STATE,
    CODES_DIGIT,
    CODES_65,
    CODES_UNLIKE,
    CODES_DASH,
    COVER_MISSING,
    COVER_UNENDED,
    COVER_I,
    COVER_O,
    COVER_TYPE,
    COVER_P,
    COVER_FIELDS,
    COVER_LENGTH,
    COVER_CHARACTER,
    COVER_NO_PLACES,
    COVER_P_HIGH,
    COVER_P_LOW,
    COVER_END,
    COVER_BEHIND,
    ROW_257,
    ROW_257_BAD,
    ROW_257_MORE,
    MISFIT_I,
    MISFIT_O,
    MISFIT_BOTH,
    ORDER_UN_AT,
    ORDER_15_UN,
    ORDER_1_15,
    ORDER_2_15,
    ORDER_LISTING_CODES,
    ORDER_CODES_COVER,
    SORTS
};

static struct seen_sort sorts[SORTS] = {
    [OK_OWN] = {"our code and cover", 300, 0},
    [OK_LEAST] = {"our fewest bits", 100, 0},
    [OK_MOORE] = {"a Moore machine", 300, 0},
    [OK_FLOW] = {"a flow table", 100, 0},
    [OK_LEFT_OUT] = {"rows left out", 200, 0},
    [OK_KEPT] = {"rows kept", 200, 0},
    [OK_UNTYPED] = {"no .type", 500, 0},
    [OK_OTHER_ROWS] = {"other rows", 500, 0},
    [OK_ONE_HOT] = {"one-hot", 300, 0},
    [OK_COUNTING] = {"counting", 50, 0},
    [OK_TURNED] = {"turned columns", 200, 0},
    [OK_NO_BITS] = {"no bits", 100, 0},
    [OK_64_BITS] = {"64 bits", 100, 0},
    [OK_256_ROWS] = {"256 rows", 30, 0},
    [OK_16_INPUTS] = {"16 inputs", 10, 0},
    [OK_DASHES] = {"output dashes", 300, 0},
    [OK_FREE_OUTPUT] = {"1 for a free output", 100, 0},
    [OK_FREE_NEXT] = {"1 for a free next bit", 100, 0},
    [OK_UNMET_DI] = {"an unmet dichotomy", 100, 0},
    [OK_WIDTH] = {"more bits than the width", 100, 0},
    [UN_0] = {"requirement 0", 100, 0},
    [UN_PAIR] = {"a later pair", 100, 0},
    [UN_GROUP] = {"a group", 200, 0},
    [UN_NO_BITS] = {"no bits", 30, 0},
    [AT_MISSING] = {"no 1", 150, 0},
    [AT_DASH] = {"a dash for 1", 25, 0},
    [AT_DASH_BESIDE] = {"a dash beside 1", 40, 0},
    [AT_ONE] = {"1 for 0", 100, 0},
    [AT_ONE_DASH] = {"a dash for 0", 80, 0},
    [AT_NEXT_MISSING] = {"no 1 (next)", 150, 0},
    [AT_NEXT_DASH] = {"a dash for 1 (next)", 20, 0},
    [AT_NEXT_DASH_BESIDE] = {"a dash beside 1 (next)", 50, 0},
    [AT_NEXT_ONE] = {"1 for 0 (next)", 60, 0},
    [AT_NEXT_ONE_DASH] = {"a dash for 0 (next)", 50, 0},
    [AT_NO_ROW] = {"no row fires", 200, 0},
    [AT_STATE_0] = {"state 0", 300, 0},
    [AT_LATER_STATE] = {"a later state", 300, 0},
    [AT_INPUT_0] = {"input 0", 200, 0},
    [AT_LAST_INPUT] = {"the last input", 60, 0},
    [AT_16_INPUTS] = {"16 inputs", 3, 0},
    [AT_64_STATES] = {"33 states and more", 30, 0},
    [AT_UNTYPED] = {"no .type", 300, 0},
    [AT_MOORE] = {"a Moore machine", 300, 0},
    [AT_FLOW] = {"a flow table", 20, 0},
    [LISTING_BAD] = {"the listing's lines", 120, 0},
    [LISTING_CLASH] = {"6, 13 or 17", 20, 0},
    [CODES_MISSING] = {"no code line", 50, 0},
    [CODES_EXTRA] = {"one too many", 50, 0},
    [CODES_UNENDED] = {"no LF", 30, 0},
    [CODES_FIELDS] = {"fields", 50, 0},
    [CODES_MARK] = {"another mark", 50, 0},
    [CODES_NO_NUMBER] = {"no number", 30, 0},
    [CODES_OTHER_STATE] = {"another state", 50, 0},
    [CODES_DIGIT] = {"no digit", 50, 0},
    [CODES_65] = {"over 64 bits", 50, 0},
    [CODES_UNLIKE] = {"unlike the first", 50, 0},
    [CODES_DASH] = {"a dash and one bit", 5, 0},
    [COVER_MISSING] = {"no cover line", 30, 0},
    [COVER_UNENDED] = {"no LF", 30, 0},
    [COVER_I] = {".i", 50, 0},
    [COVER_O] = {".o", 50, 0},
    [COVER_TYPE] = {".type", 25, 0},
    [COVER_P] = {".p", 50, 0},
    [COVER_FIELDS] = {"a row's fields", 25, 0},
    [COVER_LENGTH] = {"a row's length", 50, 0},
    [COVER_CHARACTER] = {"a row's character", 20, 0},
    [COVER_NO_PLACES] = {"a row under .i 0 or .o 0", 20, 0},
    [COVER_P_HIGH] = {".p too high", 50, 0},
    [COVER_P_LOW] = {".p too low", 50, 0},
    [COVER_END] = {"another .e", 50, 0},
    [COVER_BEHIND] = {"bytes behind .e", 50, 0},
    [ROW_257] = {"a 257th row", 40, 0},
    [ROW_257_BAD] = {"a bad 257th row", 10, 0},
    [ROW_257_MORE] = {"a 257th row above .p", 10, 0},
    [MISFIT_I] = {".i does not fit", 100, 0},
    [MISFIT_O] = {".o does not fit", 100, 0},
    [MISFIT_BOTH] = {"neither fits", 50, 0},
    [ORDER_UN_AT] = {"UN before AT", 100, 0},
    [ORDER_15_UN] = {"15 before UN", 50, 0},
    [ORDER_1_15] = {"1 before 15", 30, 0},
    [ORDER_2_15] = {"2 before 15", 10, 0},
    [ORDER_LISTING_CODES] = {"the listing before the codes", 10, 0},
    [ORDER_CODES_COVER] = {"the codes before the cover", 30, 0},
};

static struct second_checked checked;

static void count(enum sort sort, bool seen)
{
    sorts[sort].seen += seen;
}

/* ---- lines of a text ---- */

struct span {
    const uint8_t *at;
    size_t length;
};

/* The line of this number, from 1, without its LF; *there and *ended tell whether it is there at all and has an LF. */
static struct span line_of(const struct check_text *text, unsigned number, bool *there, bool *ended)
{
    size_t at = 0;
    for (; at < text->length && number > 1; at++)
        number -= text->bytes[at] == '\n';
    struct span line = {text->bytes + at, 0};
    *there = at < text->length;
    while (at + line.length < text->length && text->bytes[at + line.length] != '\n')
        line.length++;
    *ended = at + line.length < text->length;
    return line;
}

static unsigned field_number(struct span line)
{
    unsigned fields = 1;
    for (size_t at = 0; at < line.length; at++)
        fields += line.at[at] == ' ';
    return fields;
}

static struct span field_of(struct span line, unsigned number)
{
    size_t at = 0;
    for (; at < line.length && number > 0; at++)
        number -= line.at[at] == ' ';
    struct span field = {line.at + at, 0};
    while (at + field.length < line.length && line.at[at + field.length] != ' ')
        field.length++;
    return field;
}

static bool is_word(struct span field, const char *word)
{
    return field.length == strlen(word) && memcmp(field.at, word, field.length) == 0;
}

/* Only so long, and out of these characters. */
static bool is_of(struct span field, const char *characters)
{
    for (size_t at = 0; at < field.length; at++) {
        bool known = false;
        for (const char *one = characters; *one != 0; one++)
            known = known || field.at[at] == (uint8_t)*one;
        if (!known)
            return false;
    }
    return field.length > 0;
}

static bool is_number(struct span field)
{
    return is_of(field, "0123456789") && field.length <= 4 && (field.length == 1 || field.at[0] != '0');
}

/* ---- answers ---- */

/* What the cover's firing rows say of each place in a state at an input. */
static void hear(unsigned state, unsigned input, bool one[SECOND_PLA_PLACES], bool dash[SECOND_PLA_PLACES])
{
    unsigned inputs = checked.machine.inputs;
    unsigned places = checked.code.bits + checked.machine.outputs;
    memset(one, 0, SECOND_PLA_PLACES);
    memset(dash, 0, SECOND_PLA_PLACES);
    for (unsigned row = 0; row < checked.pla.rows; row++) {
        const uint8_t *characters = checked.pla.row[row].input;
        bool fires = true;
        for (unsigned place = 0; place < inputs + checked.code.bits; place++) {
            uint64_t digit = place < inputs ? input >> (inputs - 1 - place) & 1 : checked.code.bit[place - inputs] >> state & 1;
            fires = fires && (characters[place] == '-' || characters[place] == '0' + digit);
        }
        for (unsigned place = 0; fires && place < places; place++) {
            one[place] = one[place] || checked.pla.row[row].output[place] == '1';
            dash[place] = dash[place] || checked.pla.row[row].output[place] == '-';
        }
    }
}

static bool listing_fires(unsigned state, unsigned input)
{
    unsigned inputs = checked.machine.inputs;
    for (unsigned row = 0; row < checked.machine.rows; row++) {
        bool fires = checked.machine.row[row].group >> state & 1;
        for (unsigned place = 0; place < inputs; place++)
            fires = fires && checked.machine.row[row].input[place] != (input >> (inputs - 1 - place) & 1 ? '0' : '1');
        if (fires)
            return true;
    }
    return false;
}

/* Whether the cover says 1 where anything will do: of the outputs, or of the next code; looked for in small machines. */
static void see_free(void)
{
    unsigned bits = checked.code.bits;
    bool output = false, next = false;
    if (checked.machine.inputs > 4 || checked.machine.states > 8)
        return;
    for (unsigned state = 0; state < checked.machine.states; state++) {
        for (unsigned input = 0; input < 1u << checked.machine.inputs; input++) {
            char want[SECOND_PLA_PLACES];
            bool one[SECOND_PLA_PLACES], dash[SECOND_PLA_PLACES];
            hear(state, input, one, dash);
            second_want(&checked.machine, &checked.code, state, input, want);
            for (unsigned place = 0; place < bits + checked.machine.outputs; place++) {
                output = output || (place >= bits && want[place] == '-' && one[place]);
                next = next || (place < bits && want[place] == '-' && one[place]);
            }
        }
    }
    count(OK_FREE_OUTPUT, output);
    count(OK_FREE_NEXT, next);
}

static bool has_dashes(void)
{
    for (unsigned row = 0; row < checked.pla.rows; row++)
        for (unsigned place = 0; place < checked.pla.outputs; place++)
            if (checked.pla.row[row].output[place] == '-')
                return true;
    return false;
}

static bool dichotomy_unmet(void)
{
    for (unsigned at = 0; at < checked.machine.dichotomies; at++)
        if (second_met_by(checked.machine.dichotomy[at], &checked.code) == SECOND_NO_BIT)
            return true;
    return false;
}

static void see_ok(const struct generated_check *check)
{
    const struct second_machine *machine = &checked.machine;
    count(OK_OWN, check->family == CHECK_OWN && check->own_rows);
    count(OK_LEAST, check->family == CHECK_LEAST && check->own_rows);
    count(OK_MOORE, machine->moore);
    count(OK_FLOW, machine->flow_lines > 0);
    count(OK_LEFT_OUT, check->own_rows && checked.pla.rows < machine->cover_rows);
    count(OK_KEPT, check->own_rows && machine->keep == 1 && machine->cover_rows > 0);
    count(OK_UNTYPED, !checked.pla.typed);
    count(OK_OTHER_ROWS, !check->own_rows);
    count(OK_ONE_HOT, check->family == CHECK_ONE_HOT && machine->states > 2);
    count(OK_COUNTING, check->family == CHECK_COUNTING && machine->states > 2);
    count(OK_TURNED, check->family == CHECK_TURNED && machine->states > 2);
    count(OK_NO_BITS, checked.code.bits == 0);
    count(OK_64_BITS, checked.code.bits == SECOND_WIDTH);
    count(OK_256_ROWS, checked.pla.rows == SECOND_PLA_ROWS);
    count(OK_16_INPUTS, machine->inputs == SECOND_INPUTS);
    count(OK_DASHES, has_dashes());
    count(OK_UNMET_DI, dichotomy_unmet());
    count(OK_WIDTH, machine->width > 0 && checked.code.bits > machine->width);
    see_free();
}

static unsigned number_of(const uint8_t *text, size_t *at)
{
    unsigned number = 0;
    for (; text[*at] >= '0' && text[*at] <= '9'; (*at)++)
        number = number * 10 + (unsigned)(text[*at] - '0');
    (*at)++;
    return number;
}

/* The answer of the same check where nothing is asked of the codes would be `AT`: some place fails in a small machine. */
static bool fails_somewhere(void)
{
    if (checked.machine.inputs > 4 || checked.machine.states > 8)
        return false;
    for (unsigned state = 0; state < checked.machine.states; state++) {
        for (unsigned input = 0; input < 1u << checked.machine.inputs; input++) {
            char want[SECOND_PLA_PLACES];
            bool one[SECOND_PLA_PLACES], dash[SECOND_PLA_PLACES];
            hear(state, input, one, dash);
            second_want(&checked.machine, &checked.code, state, input, want);
            for (unsigned place = 0; place < checked.code.bits + checked.machine.outputs; place++)
                if (!second_agrees(want[place], one[place], dash[place]))
                    return true;
        }
    }
    return false;
}

static void see_un(unsigned unmet)
{
    unsigned pairs = checked.machine.states * (checked.machine.states - 1) / 2;
    count(UN_0, unmet == 0);
    count(UN_PAIR, unmet > 0 && unmet < pairs);
    count(UN_GROUP, unmet >= pairs);
    count(UN_NO_BITS, checked.code.bits == 0);
    count(ORDER_UN_AT, fails_somewhere());
}

static void see_at(unsigned state, unsigned input)
{
    const struct second_machine *machine = &checked.machine;
    unsigned bits = checked.code.bits;
    char want[SECOND_PLA_PLACES];
    bool one[SECOND_PLA_PLACES], dash[SECOND_PLA_PLACES];
    bool sort[SORTS] = {false};
    hear(state, input, one, dash);
    second_want(machine, &checked.code, state, input, want);
    for (unsigned place = 0; place < bits + machine->outputs; place++) {
        unsigned of = place < bits ? AT_NEXT_MISSING : AT_MISSING;
        if (want[place] == '1' && !one[place] && !dash[place])
            sort[of] = true;
        if (want[place] == '1' && dash[place])
            sort[of + (one[place] ? AT_DASH_BESIDE : AT_DASH) - AT_MISSING] = true;
        if (want[place] == '0' && one[place])
            sort[of + AT_ONE - AT_MISSING] = true;
        if (want[place] == '0' && dash[place])
            sort[of + AT_ONE_DASH - AT_MISSING] = true;
    }
    sort[AT_NO_ROW] = !listing_fires(state, input);
    sort[state == 0 ? AT_STATE_0 : AT_LATER_STATE] = true;
    sort[AT_INPUT_0] = input == 0;
    sort[AT_LAST_INPUT] = input + 1 == 1u << machine->inputs;
    sort[AT_16_INPUTS] = machine->inputs == SECOND_INPUTS;
    sort[AT_64_STATES] = machine->states > 32;
    sort[AT_UNTYPED] = !checked.pla.typed;
    sort[AT_MOORE] = machine->moore;
    sort[AT_FLOW] = machine->flow_lines > 0;
    for (unsigned at = 0; at < SORTS; at++)
        count(at, sort[at]);
}

static void see_answer(const struct generated_check *check, const uint8_t *text)
{
    size_t at = 3;
    if (text[0] == 'O')
        see_ok(check);
    if (text[0] == 'U')
        see_un(number_of(text, &at));
    if (text[0] == 'A') {
        unsigned state = number_of(text, &at);
        see_at(state, number_of(text, &at));
    }
}

/* ---- refusals ---- */

static enum sort sort_codes(const struct check_text *text, unsigned number)
{
    bool there, ended;
    struct span line = line_of(text, number, &there, &ended);
    struct span code = field_of(line, 2);
    if (number > checked.machine.states)
        return CODES_EXTRA;
    if (!there)
        return CODES_MISSING;
    if (!ended)
        return CODES_UNENDED;
    if (field_number(line) != 3)
        return CODES_FIELDS;
    if (!is_word(field_of(line, 0), "SC"))
        return CODES_MARK;
    if (!is_number(field_of(line, 1)))
        return CODES_NO_NUMBER;
    if (is_word(code, "-") || is_of(code, "01")) {
        if (code.length > SECOND_WIDTH)
            return CODES_65;
        size_t at = 0;
        if (number_of(field_of(line, 1).at, &at) + 1 != number)
            return CODES_OTHER_STATE;
        return code.length == (checked.code.bits == 0 ? 1 : checked.code.bits) ? CODES_DASH : CODES_UNLIKE;
    }
    return CODES_DIGIT;
}

/* What has been read of the cover tells what was expected at the line. */
static enum sort sort_row(struct span line)
{
    const struct second_pla *pla = &checked.pla;
    struct span input = field_of(line, 0), output = field_of(line, 1);
    if (is_word(line, ".e"))
        return COVER_P_HIGH;
    if (field_number(line) != 2)
        return COVER_FIELDS;
    if (pla->inputs == 0 || pla->outputs == 0)
        return COVER_NO_PLACES;
    if (!is_of(input, "01-") || !is_of(output, "01-"))
        return COVER_CHARACTER;
    return COVER_LENGTH;
}

static enum sort sort_cover(const struct check_text *text, unsigned number)
{
    bool there, ended;
    struct span line = line_of(text, number, &there, &ended);
    unsigned head = checked.pla.typed ? 4 : 3;
    if (!there)
        return COVER_MISSING;
    if (number <= 2)
        return !ended ? COVER_UNENDED : number == 1 ? COVER_I : COVER_O;
    if (number <= head) {
        struct span mark = field_of(line, 0);
        return !ended ? COVER_UNENDED : is_word(mark, ".type") ? COVER_TYPE : COVER_P;
    }
    if (checked.pla.rows == SECOND_PLA_ROWS && checked.pla.said > SECOND_PLA_ROWS && !is_word(line, ".e"))
        return ROW_257_BAD;
    if (!ended && number <= head + checked.pla.said + 1)
        return COVER_UNENDED;
    if (number > head + checked.pla.said + 1)
        return COVER_BEHIND;
    if (number <= head + checked.pla.said)
        return sort_row(line);
    if (field_number(line) == 2 && is_of(field_of(line, 0), "01-") && is_of(field_of(line, 1), "01-"))
        return checked.pla.rows == SECOND_PLA_ROWS ? ROW_257_MORE : COVER_P_LOW;
    return COVER_END;
}

static bool misfits_inputs(void)
{
    return checked.pla.inputs != checked.machine.inputs + checked.code.bits;
}

static bool misfits_outputs(void)
{
    return checked.pla.outputs != checked.code.bits + checked.machine.outputs;
}

/* A refusal of the cover, where the two lines of its head that were read do not fit. */
static void see_cover(const struct generated_check *check, unsigned number, unsigned line)
{
    bool misfit = line > 2 && (misfits_inputs() || misfits_outputs());
    count(number == SECOND_LIMIT ? ROW_257 : sort_cover(&check->cover, line), true);
    count(number == SECOND_LIMIT ? ORDER_2_15 : ORDER_1_15, misfit);
}

static bool some_unmet(void)
{
    static struct second_requirements requirements;
    second_draw_up(&checked.machine, &requirements);
    for (unsigned at = 0; at < requirements.pairs_groups; at++)
        if (second_met_by(requirements.list[at], &checked.code) == SECOND_NO_BIT)
            return true;
    return false;
}

static void see_misfit(unsigned line)
{
    count(line == 1 ? MISFIT_I : MISFIT_O, true);
    count(MISFIT_BOTH, line == 1 && misfits_outputs());
    count(ORDER_15_UN, some_unmet());
}

static void see_listing(const struct generated_check *check, unsigned number, unsigned states)
{
    bool after = number == SECOND_CONFLICT || number == SECOND_UNSTABLE || number == SECOND_UNTOLD;
    struct second_code code;
    count(after ? LISTING_CLASH : LISTING_BAD, true);
    count(ORDER_LISTING_CODES, second_read_codes(check->codes.bytes, check->codes.length, states, &code).number != SECOND_FINE);
}

static void see_refusal(const struct generated_check *check, unsigned number, unsigned line)
{
    static struct second_pla other;
    struct second_refusal listing = second_read_lines(check->listing.bytes, check->listing.length, &checked.machine);
    if (listing.number == SECOND_FINE)
        listing = second_find_conflict(&checked.machine);
    if (listing.number != SECOND_FINE) {
        see_listing(check, number, checked.machine.states);
        return;
    }
    if (second_read_codes(check->codes.bytes, check->codes.length, checked.machine.states, &checked.code).number != SECOND_FINE) {
        count(sort_codes(&check->codes, line), true);
        count(ORDER_CODES_COVER, second_read_pla(check->cover.bytes, check->cover.length, &other).number != SECOND_FINE);
    } else if (second_read_pla(check->cover.bytes, check->cover.length, &checked.pla).number != SECOND_FINE) {
        see_cover(check, number, line);
    } else {
        see_misfit(line);
    }
}

void seen_check(const struct generated_check *check, int64_t answer, const uint8_t *text)
{
    struct second_check_given given = {check->listing.bytes, check->listing.length, check->codes.bytes,
                                       check->codes.length,  check->cover.bytes,    check->cover.length};
    if (answer < 0) {
        see_refusal(check, (unsigned)(-answer / 100000), (unsigned)(-answer % 100000));
        return;
    }
    second_check_read(&given, &checked);
    see_answer(check, text);
}

void seen_check_print(void)
{
    seen_print_sorts("OK", sorts, OK_OWN, UN_0);
    seen_print_sorts("UN", sorts, UN_0, AT_MISSING);
    seen_print_sorts("AT", sorts, AT_MISSING, LISTING_BAD);
    seen_print_sorts("listings refused", sorts, LISTING_BAD, CODES_MISSING);
    seen_print_sorts("codes refused", sorts, CODES_MISSING, COVER_MISSING);
    seen_print_sorts("covers refused", sorts, COVER_MISSING, ORDER_UN_AT);
    seen_print_sorts("orders", sorts, ORDER_UN_AT, SORTS);
}

bool seen_check_each(void)
{
    return seen_enough(sorts, SORTS);
}
