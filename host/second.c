/* The second encoder's entries: the report and the cover of a listing, whole or in parts, and what each width buys it, as bytes
   or as the number of a refusal. */
#include "second.h"

/* A text being written. */
struct text {
    size_t length;
    uint8_t bytes[SECOND_TEXT];
};

static void put_byte(struct text *text, char byte)
{
    text->bytes[text->length] = (uint8_t)byte;
    text->length++;
}

static void put_word(struct text *text, const char *word)
{
    for (; *word != 0; word++)
        put_byte(text, *word);
}

static void put_number(struct text *text, uint64_t number)
{
    if (number >= 10)
        put_number(text, number / 10);
    put_byte(text, (char)('0' + number % 10));
}

static void put_word_number(struct text *text, const char *word, uint64_t number)
{
    put_word(text, word);
    put_byte(text, ' ');
    put_number(text, number);
}

/* "Bits are in the order built, first bit leftmost." */
static void put_code(struct text *text, const struct second_code *code, unsigned state)
{
    for (unsigned place = 0; place < code->bits; place++)
        put_byte(text, code->bit[place] >> state & 1 ? '1' : '0');
}

/* "minus (number * 100,000 + line)" */
static int64_t refused(struct second_refusal refusal)
{
    return -((int64_t)refusal.number * 100000 + (int64_t)refusal.line);
}

static const struct second_refusal no_room = {SECOND_NO_ROOM, 0};

/* "no room: the lent output is shorter than the answer"; "A refusal writes no byte of the output; an answer leaves the
   bytes behind its own length as they came." */
static int64_t hand_over(const struct text *text, uint8_t *out, size_t out_length)
{
    if (out_length < text->length)
        return refused(no_room);
    memcpy(out, text->bytes, text->length);
    return (int64_t)text->length;
}

/* 02, request 09: "long reports are printed line by line". From byte `from` on, as many whole lines as fit; where `from`
   lies within a line, the first one is the rest of that line. Each line ends in LF (reading 19), so the last LF within the
   room is the last line that fits. */
int64_t second_part(const uint8_t *text, size_t text_length, size_t from, uint8_t *out, size_t out_length)
{
    size_t fits = 0;
    if (from >= text_length)
        return 0;
    for (size_t at = from; at < text_length && at - from < out_length; at++)
        if (text[at] == '\n')
            fits = at - from + 1;
    if (fits == 0)
        return refused(no_room);
    memcpy(out, text + from, fits);
    return (int64_t)fits;
}

/* "too long; then lines from the top ...; then 6", whatever form the text has that is read */
static struct second_refusal prepare(second_reader *read, const uint8_t *listing, size_t length,
                                     struct second_machine *machine, struct second_requirements *requirements)
{
    struct second_refusal refusal = read(listing, length, machine);
    if (refusal.number != SECOND_FINE)
        return refusal;
    refusal = second_find_conflict(machine);
    if (refusal.number == SECOND_FINE)
        second_draw_up(machine, requirements);
    return refusal;
}

/* "then 6; 7", and no 8 (02, request 06) */
static struct second_refusal encode(second_reader *read, const uint8_t *listing, size_t length,
                                    struct second_machine *machine, struct second_requirements *requirements,
                                    struct second_code *code)
{
    struct second_refusal refusal = prepare(read, listing, length, machine, requirements);
    if (refusal.number != SECOND_FINE)
        return refusal;
    return second_build_code(requirements, machine->states, machine->width, code);
}

/* How many of the first so many requirements no bit meets. */
static unsigned count_unmet(const struct second_requirements *requirements, unsigned number,
                            const struct second_code *code)
{
    unsigned unmet = 0;
    for (unsigned r = 0; r < number; r++)
        if (second_met_by(requirements->list[r], code) == SECOND_NO_BIT)
            unmet++;
    return unmet;
}

/* "`CT bits asked unmet passes looks` ...; `SC state code` for each state; `UN number` for each unmet requirement,
   ascending; `EN`. A code of no bits prints as one dash." 02, request 04: "The report gains `BY number bit` for each met
   requirement, ascending, after the `SC` lines and before the `UN` lines." */
static void write_report(const struct second_machine *machine, const struct second_requirements *requirements,
                         const struct second_code *code, struct text *text)
{
    put_word_number(text, "CT", code->bits);
    put_word_number(text, "", requirements->number);
    put_word_number(text, "", count_unmet(requirements, requirements->number, code));
    put_word_number(text, "", code->passes);
    put_word_number(text, "", code->looks);
    put_byte(text, '\n');
    for (unsigned state = 0; state < machine->states; state++) {
        put_word_number(text, "SC", state);
        put_byte(text, ' ');
        if (code->bits == 0)
            put_byte(text, '-');
        put_code(text, code, state);
        put_byte(text, '\n');
    }
    for (unsigned r = 0; r < requirements->number; r++) {
        int bit = second_met_by(requirements->list[r], code);
        if (bit != SECOND_NO_BIT) {
            put_word_number(text, "BY", r);
            put_word_number(text, "", (uint64_t)bit);
            put_byte(text, '\n');
        }
    }
    for (unsigned r = 0; r < requirements->number; r++) {
        if (second_met_by(requirements->list[r], code) == SECOND_NO_BIT) {
            put_word_number(text, "UN", r);
            put_byte(text, '\n');
        }
    }
    put_word(text, "EN\n");
}

/* "A face has `0` or `1` where all the group's codes agree, `-` elsewhere." */
char second_face_place(uint64_t group, uint64_t bit)
{
    if ((group & bit) == 0)
        return '0';
    if ((group & ~bit) == 0)
        return '1';
    return '-';
}

/* Whether the row "shares an input vector and a state with a row that says 1 for that output" (02, request 02), a row before
   it or behind it (reading 22), an added one too. */
static bool meets_a_one(const struct second_machine *machine, const struct second_row *row, unsigned place)
{
    for (unsigned at = 0; at < machine->cover_rows; at++) {
        const struct second_row *other = &machine->row[at];
        if (other->outputs[place] != '1')
            continue;
        if (second_share_input(row, other, machine->inputs) && second_share_state(row, other))
            return true;
    }
    return false;
}

/* "Carry the dash through"; but "a minimiser may take a place that is both 1 and dash as free", so that a dash beside a 1 is
   written `0`. */
static char output_place(const struct second_machine *machine, const struct second_row *row, unsigned place)
{
    if (row->outputs[place] != '-')
        return (char)row->outputs[place];
    return meets_a_one(machine, row, place) ? '0' : '-';
}

/* "A line is the input, the face, a space, the code of the next state (zeros if none), the outputs." */
static void write_cover_row(const struct second_machine *machine, const struct second_row *row,
                            const struct second_code *code, struct text *text)
{
    for (unsigned place = 0; place < machine->inputs; place++)
        put_byte(text, (char)row->input[place]);
    for (unsigned place = 0; place < code->bits; place++)
        put_byte(text, second_face_place(row->group, code->bit[place]));
    put_byte(text, ' ');
    if (row->next == SECOND_NO_STATE) {
        for (unsigned place = 0; place < code->bits; place++)
            put_byte(text, '0');
    } else {
        put_code(text, code, (unsigned)row->next);
    }
    for (unsigned place = 0; place < machine->outputs; place++)
        put_byte(text, output_place(machine, row, place));
    put_byte(text, '\n');
}

/* 02, request 07: "A row whose next code and outputs are all zeros adds nothing to an array." No next state is zeros, and so are
   no bits; the outputs are the listing's, so that a dash keeps its row even where it is written `0` (reading 24). */
static bool says_nothing(const struct second_machine *machine, const struct second_row *row, const struct second_code *code)
{
    for (unsigned place = 0; place < code->bits; place++)
        if (row->next != SECOND_NO_STATE && (code->bit[place] >> row->next & 1))
            return false;
    for (unsigned place = 0; place < machine->outputs; place++)
        if (row->outputs[place] != '0')
            return false;
    return true;
}

/* "the cover writer leaves these out unless asked" */
static bool is_printed(const struct second_machine *machine, const struct second_row *row, const struct second_code *code)
{
    return machine->keep == 1 || !says_nothing(machine, row, code);
}

/* "`.p` counts what is printed" */
static unsigned count_printed(const struct second_machine *machine, const struct second_code *code)
{
    unsigned printed = 0;
    for (unsigned row = 0; row < machine->cover_rows; row++)
        printed += is_printed(machine, &machine->row[row], code);
    return printed;
}

/* "Cover: `.i` (i + bits), `.o` (bits + o), `.p` (rows), a line per `PT` in order, `.e`", of the rows that are printed; 02,
   request 02: "put `.type fd` before `.p`", in every cover (reading 22); the added rows of a Moore machine are the last. */
static void write_cover(const struct second_machine *machine, const struct second_code *code, struct text *text)
{
    put_word_number(text, ".i", machine->inputs + code->bits);
    put_byte(text, '\n');
    put_word_number(text, ".o", code->bits + machine->outputs);
    put_byte(text, '\n');
    put_word(text, ".type fd\n");
    put_word_number(text, ".p", count_printed(machine, code));
    put_byte(text, '\n');
    for (unsigned row = 0; row < machine->cover_rows; row++)
        if (is_printed(machine, &machine->row[row], code))
            write_cover_row(machine, &machine->row[row], code, text);
    put_word(text, ".e\n");
}

static struct second_refusal make_report(second_reader *read, const uint8_t *listing, size_t listing_length,
                                         struct text *text)
{
    static struct second_machine machine;
    static struct second_requirements requirements;
    struct second_code code;
    struct second_refusal refusal = encode(read, listing, listing_length, &machine, &requirements, &code);
    if (refusal.number != SECOND_FINE)
        return refusal;
    text->length = 0;
    write_report(&machine, &requirements, &code, text);
    return refusal;
}

/* 9 is "cover asked for, and a pair or group requirement is unmet": a dichotomy may stay unmet. */
static struct second_refusal make_cover(second_reader *read, const uint8_t *listing, size_t listing_length,
                                        struct text *text)
{
    static struct second_machine machine;
    static struct second_requirements requirements;
    struct second_refusal unmet = {SECOND_UNMET, 0};
    struct second_code code;
    struct second_refusal refusal = encode(read, listing, listing_length, &machine, &requirements, &code);
    if (refusal.number != SECOND_FINE)
        return refusal;
    if (count_unmet(&requirements, requirements.pairs_groups, &code) > 0)
        return unmet;
    text->length = 0;
    write_cover(&machine, &code, text);
    return refusal;
}

int64_t second_report_of(second_reader *read, const uint8_t *listing, size_t listing_length, uint8_t *out,
                         size_t out_length)
{
    static struct text text;
    struct second_refusal refusal = make_report(read, listing, listing_length, &text);
    return refusal.number != SECOND_FINE ? refused(refusal) : hand_over(&text, out, out_length);
}

int64_t second_cover_of(second_reader *read, const uint8_t *listing, size_t listing_length, uint8_t *out,
                        size_t out_length)
{
    static struct text text;
    struct second_refusal refusal = make_cover(read, listing, listing_length, &text);
    return refusal.number != SECOND_FINE ? refused(refusal) : hand_over(&text, out, out_length);
}

int64_t second_report(const uint8_t *listing, size_t listing_length, uint8_t *out, size_t out_length)
{
    return second_report_of(second_read_lines, listing, listing_length, out, out_length);
}

int64_t second_cover(const uint8_t *listing, size_t listing_length, uint8_t *out, size_t out_length)
{
    return second_cover_of(second_read_lines, listing, listing_length, out, out_length);
}

int64_t second_report_part(const uint8_t *listing, size_t listing_length, size_t from, uint8_t *out, size_t out_length)
{
    static struct text text;
    struct second_refusal refusal = make_report(second_read_lines, listing, listing_length, &text);
    return refusal.number != SECOND_FINE ? refused(refusal) : second_part(text.bytes, text.length, from, out, out_length);
}

int64_t second_cover_part(const uint8_t *listing, size_t listing_length, size_t from, uint8_t *out, size_t out_length)
{
    static struct text text;
    struct second_refusal refusal = make_cover(second_read_lines, listing, listing_length, &text);
    return refusal.number != SECOND_FINE ? refused(refusal) : second_part(text.bytes, text.length, from, out, out_length);
}

/* 02, request 12: "I raise the width by one and compare." `WD width unmet covered` for each width from 1 to the last that adds
   a bit, where covered is 1 if every pair and group requirement is met, then `EN`. The machine is encoded once for each
   width. */
static void write_widths(const struct second_machine *machine, const struct second_requirements *requirements,
                         struct text *text)
{
    for (unsigned width = 1; width <= SECOND_WIDTH; width++) {
        struct second_code code;
        second_build_code(requirements, machine->states, width, &code);
        if (code.bits < width)
            break;
        put_word_number(text, "WD", width);
        put_word_number(text, "", count_unmet(requirements, requirements->number, &code));
        put_word_number(text, "", count_unmet(requirements, requirements->pairs_groups, &code) == 0);
        put_byte(text, '\n');
    }
    put_word(text, "EN\n");
}

/* The listing's own width is not used, and 7 is never given. */
int64_t second_widths(const uint8_t *listing, size_t listing_length, uint8_t *out, size_t out_length)
{
    static struct second_machine machine;
    static struct second_requirements requirements;
    static struct text text;
    struct second_refusal refusal = prepare(second_read_lines, listing, listing_length, &machine, &requirements);
    if (refusal.number != SECOND_FINE)
        return refused(refusal);
    text.length = 0;
    write_widths(&machine, &requirements, &text);
    return hand_over(&text, out, out_length);
}

/* The report and the cover in a code that is found in another way, one that leaves no pair or group unmet. */
int64_t second_report_by(second_finder *find, const uint8_t *listing, size_t listing_length, uint8_t *out, size_t out_length)
{
    static struct second_machine machine;
    static struct second_requirements requirements;
    static struct text text;
    struct second_code code;
    struct second_refusal refusal = find(listing, listing_length, &machine, &requirements, &code);
    if (refusal.number != SECOND_FINE)
        return refused(refusal);
    text.length = 0;
    write_report(&machine, &requirements, &code, &text);
    return hand_over(&text, out, out_length);
}

int64_t second_cover_by(second_finder *find, const uint8_t *listing, size_t listing_length, uint8_t *out, size_t out_length)
{
    static struct second_machine machine;
    static struct second_requirements requirements;
    static struct text text;
    struct second_code code;
    struct second_refusal refusal = find(listing, listing_length, &machine, &requirements, &code);
    if (refusal.number != SECOND_FINE)
        return refused(refusal);
    text.length = 0;
    write_cover(&machine, &code, &text);
    return hand_over(&text, out, out_length);
}
