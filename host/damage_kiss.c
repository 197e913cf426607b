/* Damaged KISS2 texts by chance: one function for each way in which a text can be spoilt. */
#include "generate_kiss.h"

/* Where a line or a field stands in a text; a line's LF is not counted in its length. */
struct span {
    size_t at;
    size_t length;
};

/* ---- finding and changing ---- */

/* Puts these bytes in the place of those of the span, if the text can hold them. */
static void replace(struct kiss_text *text, struct span span, const void *bytes, size_t length)
{
    size_t behind = text->length - span.at - span.length;
    if (span.at + length + behind > KISS_BYTES)
        return;
    memmove(text->bytes + span.at + length, text->bytes + span.at + span.length, behind);
    memcpy(text->bytes + span.at, bytes, length);
    text->length = span.at + length + behind;
}

static void insert(struct kiss_text *text, size_t at, const void *bytes, size_t length)
{
    struct span nothing = {at, 0};
    replace(text, nothing, bytes, length);
}

static void insert_word(struct kiss_text *text, size_t at, const char *word)
{
    insert(text, at, word, strlen(word));
}

static unsigned line_number(const struct kiss_text *text)
{
    unsigned lines = 0;
    for (size_t at = 0; at < text->length; at++)
        lines += text->bytes[at] == '\n';
    return lines;
}

/* The line of this number, from 0; behind the last one, an empty span at the end. */
static struct span line_of(const struct kiss_text *text, unsigned number)
{
    struct span span = {0, 0};
    for (; span.at < text->length && number > 0; span.at++)
        number -= text->bytes[span.at] == '\n';
    while (span.at + span.length < text->length && text->bytes[span.at + span.length] != '\n')
        span.length++;
    return span;
}

static struct span any_line(struct chance *chance, const struct kiss_text *text)
{
    return line_of(text, chance_below(chance, line_number(text) + 1));
}

static struct span whole_line(const struct kiss_text *text, struct span line)
{
    line.length += line.at + line.length < text->length;
    return line;
}

/* A line of rows or, where `header` says so, of headers, by chance; false if there is none. */
static bool find_line(struct chance *chance, const struct kiss_text *text, bool header, struct span *line)
{
    unsigned found = 0;
    unsigned lines = line_number(text);
    unsigned start = lines == 0 ? 0 : chance_below(chance, lines);
    for (unsigned step = 0; step < lines && step < 200 && found == 0; step++) {
        *line = line_of(text, (start + step) % lines);
        bool dot = line->length > 0 && text->bytes[line->at] == '.';
        bool end = line->length == 2 && text->bytes[line->at + 1] == 'e';
        found += dot == header && !end && line->length > 0;
    }
    return found > 0;
}

/* The header with this letter; false if there is none. */
static bool find_header(const struct kiss_text *text, char letter, struct span *line)
{
    unsigned lines = line_number(text);
    for (unsigned number = 0; number < lines; number++) {
        *line = line_of(text, number);
        if (line->length == 0 || text->bytes[line->at] != '.')
            return false;
        if (line->length >= 2 && text->bytes[line->at + 1] == (uint8_t)letter)
            return true;
    }
    return false;
}

/* The field of this number, from 0; false if there is none. */
static bool field_of(const struct kiss_text *text, struct span line, unsigned number, struct span *field)
{
    size_t end = line.at + line.length;
    field->at = line.at;
    field->length = 0;
    for (; field->at < end && number > 0; field->at++)
        number -= text->bytes[field->at] == ' ';
    while (field->at + field->length < end && text->bytes[field->at + field->length] != ' ')
        field->length++;
    return number == 0;
}

/* Where the last line begins: `.e` most often. */
static size_t near_end(const struct kiss_text *text)
{
    unsigned lines = line_number(text);
    return line_of(text, lines == 0 ? 0 : lines - 1).at;
}

static const char *any_word(struct chance *chance, const char *const *word, unsigned number)
{
    return word[chance_below(chance, number)];
}

/* ---- lines to put in ---- */

/* A text of one line, or a few. */
static struct kiss_text piece;

/* A name that is too long, by one byte most often. */
static void put_long_name(struct chance *chance)
{
    unsigned length = chance_part(chance, 2, 3) ? 32 : chance_from(chance, 33, 300);
    uint8_t byte = (uint8_t)('a' + chance_below(chance, 26));
    for (unsigned at = 0; at < length; at++)
        kiss_put(&piece, &byte, 1);
}

static void put_some(unsigned number, char byte)
{
    for (unsigned at = 0; at < number; at++)
        kiss_put(&piece, &byte, 1);
}

/* A row of this machine; of its fields some are spoilt, as asked. */
enum { GOOD_ROW = 0, BAD_ROW = 1, LONG_NAME = 2 };

static void put_row(struct chance *chance, const struct kiss_text *text, unsigned faults)
{
    unsigned bad = faults & BAD_ROW ? chance_from(chance, 1, 6) : 0;
    bool present = chance_part(chance, 1, 2);
    put_some(text->inputs + (bad == 1), '0');
    kiss_put_word(&piece, bad == 2 ? "x " : " ");
    if (faults & LONG_NAME && present)
        put_long_name(chance);
    else
        kiss_put_word(&piece, bad == 3 && !(faults & LONG_NAME) ? "" : "q0");
    kiss_put_word(&piece, bad == 4 ? "  " : " ");
    if (faults & LONG_NAME && !present)
        put_long_name(chance);
    else
        kiss_put_word(&piece, "*");
    kiss_put_word(&piece, bad == 5 || (bad == 3 && faults & LONG_NAME) ? " 1 " : " ");
    put_some(text->outputs - (bad == 6), bad == 6 ? '2' : '1');
    kiss_put_word(&piece, "\n");
}

/* A number as it may not stand, or may. */
static const char *any_number(struct chance *chance)
{
    static const char *const number[] = {
        "0",  "1",  "2",   "16",  "17", "32",  "33",  "64",  "65",         "128", "9999", "00", "01", "016", "10000",
        "",   "-1", "+1",  "1x",  "x",  "1\t", "1\r", "3.0", "4294967297", "256", "257",  "-",  "*",  "1 ",  "1 1",
    };
    return any_word(chance, number, LENGTH_OF(number));
}

/* A header line with this letter, good or spoilt in some way. */
static void put_any_header(struct chance *chance, const struct kiss_text *text, char letter)
{
    char mark[4] = {'.', letter, ' ', 0};
    unsigned sort = chance_below(chance, 5);
    kiss_put_word(&piece, mark);
    if (letter == 'r' && sort == 0)
        put_long_name(chance);
    else if (letter == 'r')
        kiss_put_word(&piece, sort == 1 ? "*" : sort == 2 ? "" : "q1");
    else if (sort == 0)
        kiss_put_word(&piece, "99");
    else if (sort == 1)
        kiss_put_word(&piece, any_number(chance));
    else
        kiss_put_number(&piece, letter == 'i' ? text->inputs : letter == 'o' ? text->outputs : 1);
    if (sort == 4)
        kiss_put_word(&piece, chance_part(chance, 1, 2) ? " " : " 1");
    kiss_put_word(&piece, "\n");
}

static char any_letter(struct chance *chance)
{
    static const char letters[] = "iospr";
    return letters[chance_below(chance, 5)];
}

/* Puts the piece in; where it is the last thing of the text, sometimes without its LF and all that is behind it. */
static void put_in(struct chance *chance, struct kiss_text *text, size_t at)
{
    bool unended = chance_part(chance, 1, 8);
    if (at + piece.length >= KISS_BYTES)
        return;
    insert(text, at, piece.bytes, piece.length);
    if (unended && piece.length > 0)
        text->length = at + piece.length - 1;
}

/* ---- bytes ---- */

static uint8_t any_byte(struct chance *chance)
{
    static const char likely[] = "01-*.01-*. \nespirox2389";
    if (chance_part(chance, 3, 4))
        return (uint8_t)likely[chance_below(chance, sizeof likely - 1)];
    return (uint8_t)chance_next(chance);
}

static size_t any_place(struct chance *chance, const struct kiss_text *text)
{
    return chance_below(chance, (unsigned)text->length + 1);
}

static void change_byte(struct chance *chance, struct kiss_text *text)
{
    size_t at = any_place(chance, text);
    uint8_t byte = any_byte(chance);
    if (at < text->length)
        text->bytes[at] = byte;
}

static void insert_byte(struct chance *chance, struct kiss_text *text)
{
    size_t at = any_place(chance, text);
    uint8_t byte = any_byte(chance);
    insert(text, at, &byte, 1);
}

static void delete_byte(struct chance *chance, struct kiss_text *text)
{
    struct span span = {any_place(chance, text), 1};
    if (span.at < text->length)
        replace(text, span, "", 0);
}

static void cut_off(struct chance *chance, struct kiss_text *text)
{
    text->length = any_place(chance, text);
}

static void carriage_return(struct chance *chance, struct kiss_text *text)
{
    struct span line = any_line(chance, text);
    insert(text, line.at + line.length, "\r", 1);
}

/* ---- lines ---- */

static void drop_line(struct chance *chance, struct kiss_text *text)
{
    replace(text, whole_line(text, any_line(chance, text)), "", 0);
}

static void double_line(struct chance *chance, struct kiss_text *text)
{
    static uint8_t copy[KISS_BYTES];
    struct span line = whole_line(text, any_line(chance, text));
    memcpy(copy, text->bytes + line.at, line.length);
    insert(text, any_line(chance, text).at, copy, line.length);
}

static void swap_lines(struct chance *chance, struct kiss_text *text)
{
    static uint8_t copy[KISS_BYTES];
    struct span line = whole_line(text, any_line(chance, text));
    memcpy(copy, text->bytes + line.at, line.length);
    replace(text, line, "", 0);
    insert(text, any_line(chance, text).at, copy, line.length);
}

static void no_last_lf(struct chance *chance, struct kiss_text *text)
{
    (void)chance;
    if (text->length > 0)
        text->length--;
}

static void empty_line(struct chance *chance, struct kiss_text *text)
{
    insert(text, any_line(chance, text).at, "\n", 1);
}

static void no_end(struct chance *chance, struct kiss_text *text)
{
    (void)chance;
    text->length = near_end(text);
}

static void after_end(struct chance *chance, struct kiss_text *text)
{
    static const char *const words[] = {"\n", "x", ".e\n", ".i 1\n", "0 a a 1\n", " ", "\t\n", ".e"};
    if (chance_part(chance, 1, 8))
        insert(text, text->length, "\0", 1);
    else
        insert_word(text, text->length, any_word(chance, words, LENGTH_OF(words)));
}

static void unknown_mark(struct chance *chance, struct kiss_text *text)
{
    static const char *const words[] = {".\n", ".x 1\n", ".ii 1\n", ".end\n", ".I 1\n", ".E\n", ".ilb a b\n", ".type fr\n",
                                        "..\n", ".start_kiss\n", ".i\t1\n", ".e\r\n", ".ee\n", ". i 1\n"};
    size_t at = any_line(chance, text).at;
    insert_word(text, at, any_word(chance, words, LENGTH_OF(words)));
}

/* ---- headers ---- */

static void drop_header(struct chance *chance, struct kiss_text *text)
{
    struct span line;
    if (find_header(text, chance_part(chance, 1, 2) ? 'i' : 'o', &line))
        replace(text, whole_line(text, line), "", 0);
    if (chance_part(chance, 1, 4) && find_header(text, chance_part(chance, 1, 2) ? 'i' : 'o', &line))
        replace(text, whole_line(text, line), "", 0);
}

/* A row before all headers, or the end. */
static void early_row(struct chance *chance, struct kiss_text *text)
{
    struct span line = {0, 0};
    unsigned faults = chance_below(chance, 4);
    piece.length = 0;
    put_row(chance, text, faults);
    if (chance_part(chance, 1, 2) && !find_header(text, chance_part(chance, 1, 2) ? 'i' : 'o', &line))
        line.at = 0;
    put_in(chance, text, line.at);
}

static void early_end(struct chance *chance, struct kiss_text *text)
{
    static const char *const words[] = {".e\n", ".e\n", ".e \n", ".e 1\n"};
    struct span line = {0, 0};
    piece.length = 0;
    kiss_put_word(&piece, any_word(chance, words, LENGTH_OF(words)));
    if (!find_header(text, chance_part(chance, 1, 2) ? 'i' : 'o', &line))
        line.at = 0;
    put_in(chance, text, line.at);
}

/* A header once more, before the rows most often. */
static void repeat_header(struct chance *chance, struct kiss_text *text)
{
    struct span line;
    char letter = any_letter(chance);
    if (!find_header(text, letter, &line))
        letter = chance_part(chance, 1, 2) ? 'i' : 'o';
    if (!find_header(text, letter, &line))
        return;
    piece.length = 0;
    put_any_header(chance, text, letter);
    put_in(chance, text, line.at + line.length + 1);
}

/* A header behind a row: one that stands nowhere else where there is such a one. */
static void late_header(struct chance *chance, struct kiss_text *text)
{
    struct span line;
    char letter = any_letter(chance);
    for (unsigned tries = 0; tries < 6 && find_header(text, letter, &line); tries++)
        letter = any_letter(chance);
    if (!find_line(chance, text, false, &line))
        return;
    piece.length = 0;
    put_any_header(chance, text, letter);
    put_in(chance, text, whole_line(text, line).at + whole_line(text, line).length);
}

static void wrong_number(struct chance *chance, struct kiss_text *text)
{
    struct span line, field;
    const char *number = any_number(chance);
    if (find_line(chance, text, true, &line) && field_of(text, line, 1, &field))
        replace(text, field, number, strlen(number));
}

static void out_of_range(struct chance *chance, struct kiss_text *text)
{
    static const char *const far[] = {"0", "17", "33", "34", "99", "256", "272", "9999"};
    struct span line, field;
    const char *number = any_word(chance, far, LENGTH_OF(far));
    if (find_header(text, chance_part(chance, 1, 2) ? 'i' : 'o', &line) && field_of(text, line, 1, &field))
        replace(text, field, number, strlen(number));
    if (chance_part(chance, 1, 4) && find_header(text, 'i', &line)) /* 1 before 2 */
        insert_word(text, line.at + line.length, chance_part(chance, 1, 2) ? " " : " 1");
}

/* `.r` with a name that is none, or too long, and perhaps a field more. */
static void wrong_reset(struct chance *chance, struct kiss_text *text)
{
    static const char *const rest[] = {"\n", "\n", "\n", " \n", " x\n", "\n"};
    struct span line;
    if (find_header(text, 'r', &line))
        replace(text, whole_line(text, line), "", 0);
    if (!find_header(text, chance_part(chance, 1, 2) ? 'i' : 'o', &line))
        line.at = 0;
    piece.length = 0;
    kiss_put_word(&piece, ".r ");
    switch (chance_below(chance, 6)) {
    case 0:
        kiss_put_word(&piece, "*");
        break;
    case 1:
        break;
    default:
        put_long_name(chance);
        break;
    }
    kiss_put_word(&piece, any_word(chance, rest, LENGTH_OF(rest)));
    put_in(chance, text, line.at);
}

/* ---- rows ---- */

/* A row that is spoilt, put in among the rows. */
static void spoilt_row(struct chance *chance, struct kiss_text *text)
{
    struct span line;
    unsigned faults = chance_part(chance, 1, 2) ? LONG_NAME : chance_from(chance, BAD_ROW, BAD_ROW + LONG_NAME);
    if (!find_line(chance, text, false, &line))
        line.at = near_end(text);
    piece.length = 0;
    put_row(chance, text, faults);
    put_in(chance, text, line.at);
}

static void double_space(struct chance *chance, struct kiss_text *text)
{
    struct span line, field;
    if (find_line(chance, text, chance_part(chance, 1, 3), &line) &&
        field_of(text, line, chance_below(chance, 4), &field))
        insert_word(text, field.at, " ");
}

static void trailing_space(struct chance *chance, struct kiss_text *text)
{
    struct span line = any_line(chance, text);
    insert_word(text, line.at + line.length, " ");
}

static void wrong_character(struct chance *chance, struct kiss_text *text)
{
    struct span line, field;
    uint8_t byte = any_byte(chance);
    if (!find_line(chance, text, false, &line) || !field_of(text, line, chance_part(chance, 1, 2) ? 0 : 3, &field))
        return;
    if (field.length > 0)
        text->bytes[field.at + chance_below(chance, (unsigned)field.length)] = byte;
}

static void other_length(struct chance *chance, struct kiss_text *text)
{
    struct span line, field;
    if (!find_line(chance, text, false, &line) || !field_of(text, line, chance_part(chance, 1, 2) ? 0 : 3, &field))
        return;
    struct span first = {field.at, 1};
    if (chance_part(chance, 1, 2))
        insert_word(text, field.at, "0");
    else if (field.length > 0)
        replace(text, first, "", 0);
}

static void empty_field(struct chance *chance, struct kiss_text *text)
{
    struct span line, field;
    if (find_line(chance, text, false, &line) && field_of(text, line, chance_below(chance, 4), &field))
        replace(text, field, "", 0);
}

static void more_fields(struct chance *chance, struct kiss_text *text)
{
    struct span line, field;
    if (find_line(chance, text, false, &line) && field_of(text, line, chance_below(chance, 4), &field))
        insert_word(text, field.at, "1 ");
}

/* A field that is taken out with its space. */
static void fewer_fields(struct chance *chance, struct kiss_text *text)
{
    struct span line, field;
    if (!find_line(chance, text, false, &line) || !field_of(text, line, chance_below(chance, 3), &field))
        return;
    if (field.length < line.at + line.length - field.at)
        field.length++;
    replace(text, field, "", 0);
}

/* A name made longer, to 31 bytes, which is good, or to 32 and more. */
static void longer_name(struct chance *chance, struct kiss_text *text)
{
    struct span line, field;
    unsigned length = chance_part(chance, 2, 3) ? 32 : chance_part(chance, 1, 2) ? 31 : chance_from(chance, 33, 80);
    if (!find_line(chance, text, false, &line) || !field_of(text, line, chance_from(chance, 1, 2), &field))
        return;
    piece.length = 0;
    put_some(length, 'n');
    replace(text, field, piece.bytes, piece.length);
}

/* ---- whole texts ---- */

static void start_text(struct kiss_text *text, unsigned inputs, unsigned outputs)
{
    text->inputs = inputs;
    text->outputs = outputs;
    text->length = 0;
    kiss_put_word(text, ".i ");
    kiss_put_number(text, inputs);
    kiss_put_word(text, "\n.o ");
    kiss_put_number(text, outputs);
    kiss_put_word(text, "\n");
}

/* The last line of a text that is to be refused for its size, spoilt in some way or in none. */
static void end_text(struct chance *chance, struct kiss_text *text)
{
    piece.length = 0;
    put_row(chance, text, chance_below(chance, 4));
    put_in(chance, text, text->length);
    if (text->bytes[text->length - 1] == '\n')
        kiss_put_word(text, ".e\n");
}

/* 128 rows, and a line more: one of a row that is there already, or one that opens the 129th. */
static void spoilt_129th(struct chance *chance, struct kiss_text *text)
{
    start_text(text, 4, 4);
    for (unsigned row = 0; row < 128; row++) {
        char line[] = "0000 q0 * 0000\n";
        for (unsigned place = 0; place < 7; place++)
            line[place < 4 ? place : 6 + place] = row >> place & 1 ? '1' : '0';
        kiss_put_word(text, line);
    }
    if (chance_part(chance, 1, 3))
        kiss_put_word(text, "0000 q1 * 0000\n");
    end_text(chance, text);
}

/* 64 states, the last one named twice in its line or not, and a line more that names another one, or nothing new. */
static void spoilt_65th(struct chance *chance, struct kiss_text *text)
{
    start_text(text, 1, 1);
    for (unsigned state = 0; state < 62; state += 2) {
        kiss_put_word(text, "0 t");
        kiss_put_number(text, state);
        kiss_put_word(text, " t");
        kiss_put_number(text, state + 1);
        kiss_put_word(text, " 1\n");
    }
    kiss_put_word(text, chance_part(chance, 1, 2) ? "0 t62 t63 1\n" : "0 t62 t1 1\n0 t63 t63 1\n");
    if (chance_part(chance, 1, 8)) {
        kiss_put_word(text, ".e\n");
        return;
    }
    if (chance_part(chance, 1, 3))
        kiss_put_word(text, "1 t5 t63 1\n");
    else if (chance_part(chance, 1, 2))
        kiss_put_word(text, chance_part(chance, 1, 2) ? "1 t5 t64 1\n" : "1 t64 t64 1\n");
    end_text(chance, text);
}

/* No state is named. */
static void no_state(struct chance *chance, struct kiss_text *text)
{
    static const char *const end[] = {".e\n", ".e\n", ".e\n", ".e \n", ".e 1\n", ".e", ".e\n\n"};
    start_text(text, 1, 1);
    if (chance_part(chance, 1, 4))
        text->length -= 5; /* 3 before 2 */
    else
        for (unsigned row = chance_below(chance, 3); row > 0; row--)
            kiss_put_word(text, row == 1 ? "0 * * 1\n" : "1 * * -\n");
    if (chance_part(chance, 1, 4))
        kiss_put_word(text, chance_part(chance, 1, 2) ? ".p 9\n" : ".s 0\n");
    kiss_put_word(text, any_word(chance, end, LENGTH_OF(end)));
}

/* Wrong counts of both kinds, in either order, over whatever else is right or wrong. */
static void wrong_counts(struct chance *chance, struct kiss_text *text)
{
    static const char *const words[] = {".s 0\n", ".s 77\n", ".p 0\n", ".p 9999\n", ".s 99\n.p 9998\n", ".p 9998\n.s 99\n"};
    const char *word = any_word(chance, words, LENGTH_OF(words));
    struct span line;
    if (find_header(text, 's', &line))
        replace(text, whole_line(text, line), "", 0);
    if (find_header(text, 'p', &line))
        replace(text, whole_line(text, line), "", 0);
    if (!find_header(text, chance_part(chance, 1, 2) ? 'i' : 'o', &line))
        line.at = 0;
    insert_word(text, line.at, word);
}

/* Two rows behind all others that send every state to two others, and wrong counts or right ones. */
static void clash(struct chance *chance, struct kiss_text *text)
{
    struct span line;
    if (find_header(text, 'p', &line))
        replace(text, whole_line(text, line), "", 0);
    if (find_header(text, 's', &line))
        replace(text, whole_line(text, line), "", 0);
    piece.length = 0;
    put_some(text->inputs, '-');
    kiss_put_word(&piece, chance_part(chance, 1, 2) ? " * q7 " : " q7 q7 ");
    put_some(text->outputs, '1');
    kiss_put_word(&piece, "\n");
    put_some(text->inputs, chance_part(chance, 1, 2) ? '-' : '0');
    kiss_put_word(&piece, chance_part(chance, 1, 2) ? " * q8 " : " q7 q8 ");
    put_some(text->outputs, '1');
    kiss_put_word(&piece, "\n");
    insert(text, near_end(text), piece.bytes, piece.length);
    if (chance_part(chance, 1, 2))
        wrong_counts(chance, text);
}

/* Wrong counts, and a fault that comes before them: no `.e`, bytes behind it, a line. */
static void counts_late(struct chance *chance, struct kiss_text *text)
{
    wrong_counts(chance, text);
    switch (chance_below(chance, 3)) {
    case 0:
        no_end(chance, text);
        break;
    case 1:
        after_end(chance, text);
        break;
    default:
        spoilt_row(chance, text);
        break;
    }
}

static void two_texts(struct chance *chance, struct kiss_text *text)
{
    static struct kiss_text other;
    kiss_good(chance, KISS_TINY, &other);
    insert(text, text->length, other.bytes, other.length);
}

/* More bytes than may be. */
static void very_long(struct chance *chance, struct kiss_text *text)
{
    static uint8_t filler[KISS_BYTES];
    unsigned length = chance_part(chance, 1, 2) ? 65537 : 66000 + chance_below(chance, 3000);
    memset(filler, chance_part(chance, 1, 2) ? '\n' : '0', sizeof filler);
    if (text->length < length)
        insert(text, any_line(chance, text).at, filler, length - text->length);
}

static void no_bytes(struct chance *chance, struct kiss_text *text)
{
    (void)chance;
    text->length = 0;
}

/* ---- the kinds ---- */

static const struct {
    const char *name;
    unsigned weight;
    void (*spoil)(struct chance *chance, struct kiss_text *text);
} damages[KISS_DAMAGES] = {
    {"change a byte", 4, change_byte},
    {"insert a byte", 4, insert_byte},
    {"delete a byte", 4, delete_byte},
    {"cut off", 3, cut_off},
    {"a CR", 2, carriage_return},
    {"drop a line", 3, drop_line},
    {"double a line", 3, double_line},
    {"swap lines", 3, swap_lines},
    {"no last LF", 3, no_last_lf},
    {"an empty line", 2, empty_line},
    {"no .e", 4, no_end},
    {"bytes after .e", 5, after_end},
    {"unknown mark", 5, unknown_mark},
    {"no .i or .o", 5, drop_header},
    {"a row too early", 9, early_row},
    {"an early .e", 6, early_end},
    {"a repeated header", 14, repeat_header},
    {"a late header", 14, late_header},
    {"wrong number", 6, wrong_number},
    {"out of range", 7, out_of_range},
    {"a wrong .r", 9, wrong_reset},
    {"a spoilt row", 12, spoilt_row},
    {"a double space", 3, double_space},
    {"a trailing space", 2, trailing_space},
    {"wrong character", 5, wrong_character},
    {"another length", 4, other_length},
    {"an empty field", 4, empty_field},
    {"more fields", 3, more_fields},
    {"fewer fields", 3, fewer_fields},
    {"a longer name", 8, longer_name},
    {"a 129th row", 8, spoilt_129th},
    {"a 65th state", 8, spoilt_65th},
    {"no state", 7, no_state},
    {"wrong counts", 8, wrong_counts},
    {"a clash", 8, clash},
    {"counts, and more", 8, counts_late},
    {"two texts", 2, two_texts},
    {"no bytes", 1, no_bytes},
    {"very long", 1, very_long},
};

const char *kiss_damage_name(unsigned damage)
{
    return damages[damage].name;
}

unsigned kiss_draw_damage(struct chance *chance)
{
    unsigned sum = 0;
    unsigned damage = 0;
    for (unsigned at = 0; at < KISS_DAMAGES; at++)
        sum += damages[at].weight;
    for (unsigned at = chance_below(chance, sum); at >= damages[damage].weight; damage++)
        at -= damages[damage].weight;
    return damage;
}

void kiss_damage(struct chance *chance, unsigned damage, struct kiss_text *text)
{
    damages[damage].spoil(chance, text);
}
