/* Damaged listings by chance: one function for each way in which a listing can be spoilt. */
#include "generate.h"

/* Where a line or a field stands in a listing; a line's LF is not counted in its length. */
struct span {
    size_t at;
    size_t length;
};

/* Puts these bytes in the place of those of the span, if the listing can hold them. */
static void replace(struct generated *listing, struct span span, const void *bytes, size_t length)
{
    size_t behind = listing->length - span.at - span.length;
    if (span.at + length + behind > GENERATE_BYTES)
        return;
    memmove(listing->bytes + span.at + length, listing->bytes + span.at + span.length, behind);
    memcpy(listing->bytes + span.at, bytes, length);
    listing->length = span.at + length + behind;
}

static void replace_word(struct generated *listing, struct span span, const char *word)
{
    replace(listing, span, word, strlen(word));
}

static void insert(struct generated *listing, size_t at, const void *bytes, size_t length)
{
    struct span nothing = {at, 0};
    replace(listing, nothing, bytes, length);
}

static void insert_word(struct generated *listing, size_t at, const char *word)
{
    insert(listing, at, word, strlen(word));
}

static unsigned line_number(const struct generated *listing)
{
    unsigned lines = 0;
    for (size_t at = 0; at < listing->length; at++)
        if (listing->bytes[at] == '\n')
            lines++;
    return lines;
}

/* The line of this number, from 0; behind the last one, an empty span at the end. */
static struct span line_of(const struct generated *listing, unsigned number)
{
    struct span span = {0, 0};
    while (span.at < listing->length && number > 0) {
        if (listing->bytes[span.at] == '\n')
            number--;
        span.at++;
    }
    while (span.at + span.length < listing->length && listing->bytes[span.at + span.length] != '\n')
        span.length++;
    return span;
}

static struct span any_line(struct chance *chance, const struct generated *listing)
{
    return line_of(listing, chance_below(chance, line_number(listing) + 1));
}

static unsigned field_number(const struct generated *listing, struct span line)
{
    unsigned fields = 1;
    for (size_t at = line.at; at < line.at + line.length; at++)
        if (listing->bytes[at] == ' ')
            fields++;
    return fields;
}

/* The field of this number, from 0; it must be there. */
static struct span field_of(const struct generated *listing, struct span line, unsigned number)
{
    struct span span = {line.at, 0};
    size_t end = line.at + line.length;
    while (number > 0) {
        if (listing->bytes[span.at] == ' ')
            number--;
        span.at++;
    }
    while (span.at + span.length < end && listing->bytes[span.at + span.length] != ' ')
        span.length++;
    return span;
}

static struct span any_field(struct chance *chance, const struct generated *listing)
{
    struct span line = any_line(chance, listing);
    unsigned fields = field_number(listing, line);
    return field_of(listing, line, chance_below(chance, fields));
}

static bool has_mark(const struct generated *listing, struct span line, const char *mark)
{
    return line.length >= 3 && memcmp(listing->bytes + line.at, mark, 2) == 0 && listing->bytes[line.at + 2] == ' ';
}

/* The line behind this one. */
static struct span line_after(const struct generated *listing, struct span line)
{
    struct span next = {line.at + line.length + 1, 0};
    while (next.at + next.length < listing->length && listing->bytes[next.at + next.length] != '\n')
        next.length++;
    return next;
}

/* A line with this mark and so many fields, by chance; false if there is none. */
static bool find_line(struct chance *chance, const struct generated *listing, const char *mark, unsigned fields,
                      struct span *line)
{
    unsigned found = 0;
    for (struct span at = line_of(listing, 0); at.at < listing->length; at = line_after(listing, at)) {
        if (has_mark(listing, at, mark) && field_number(listing, at) == fields) {
            found++;
            if (chance_part(chance, 1, found)) /* each of those found so far is as likely */
                *line = at;
        }
    }
    return found > 0;
}

/* Before the last line. */
static size_t near_end(const struct generated *listing)
{
    unsigned lines = line_number(listing);
    return line_of(listing, lines == 0 ? 0 : lines - 1).at;
}

/* A row that fits the machine, in state 0 where all inputs are 0; it goes to this state, or to none if there is no such one. */
static size_t make_row(const struct generated *listing, unsigned next, char row[256])
{
    unsigned fields[] = {listing->inputs, listing->states, listing->states, listing->outputs};
    unsigned number = listing->moore ? 3 : 4;
    size_t length = 3;
    memcpy(row, "PT ", 3);
    for (unsigned field = 0; field < number; field++) {
        memset(row + length, '0', fields[field]);
        length += fields[field];
        row[length] = field + 1 < number ? ' ' : '\n';
        length++;
    }
    row[3 + listing->inputs + 1] = '1';
    if (next < listing->states)
        row[3 + listing->inputs + 1 + listing->states + 1 + next] = '1';
    return length;
}

/* A row's line with all its fields; one is put in before the last line if there is none. */
static struct span a_row(struct chance *chance, struct generated *listing)
{
    struct span line;
    char row[256];
    if (find_line(chance, listing, "PT", listing->moore ? 4 : 5, &line))
        return line;
    size_t length = make_row(listing, listing->states, row);
    line.at = near_end(listing);
    line.length = length - 1;
    insert(listing, line.at, row, length);
    return line;
}

static uint8_t any_byte(struct chance *chance)
{
    static const char likely[] = "01-+.01-+. \nMCPTDIENOUFT2389";
    if (chance_part(chance, 3, 4))
        return (uint8_t)likely[chance_below(chance, sizeof likely - 1)];
    return (uint8_t)chance_next(chance);
}

static size_t any_place(struct chance *chance, const struct generated *listing)
{
    return chance_below(chance, (unsigned)listing->length + 1);
}

static const char *any_word(struct chance *chance, const char *const *word, unsigned number)
{
    return word[chance_below(chance, number)];
}

/* A number as it may not stand, or may only in some places, or may. */
static const char *any_number(struct chance *chance)
{
    static const char *const number[] = {
        "0",  "1",   "2",    "16",   "17",    "32",    "33",         "63",    "64",   "65", "99",  "128", "129",
        "00", "01",  "064",  "0001", "9999",  "10000", "00064",      "65536", "65537", "-1", "+1",  "1x",  "x",
        "",   "3.0", "0x1f", "1\t",  "\r",    "256",   "4294967297", "1000",  "999",  "-",  "1e1", "000", "0000",
    };
    return any_word(chance, number, LENGTH_OF(number));
}

/* A number of 01's form that is out of some range. */
static const char *far_number(struct chance *chance)
{
    static const char *const number[] = {"0", "17", "33", "65", "65", "66", "96", "100", "128", "999", "1000", "9999"};
    return any_word(chance, number, LENGTH_OF(number));
}

static void fill_field(struct generated *listing, struct span field, char byte)
{
    memset(listing->bytes + field.at, byte, field.length);
}

/* ---- bytes ---- */

static void change_byte(struct chance *chance, struct generated *listing)
{
    size_t at = any_place(chance, listing);
    uint8_t byte = any_byte(chance);
    if (at < listing->length)
        listing->bytes[at] = byte;
}

static void insert_byte(struct chance *chance, struct generated *listing)
{
    size_t at = any_place(chance, listing);
    uint8_t byte = any_byte(chance);
    insert(listing, at, &byte, 1);
}

static void delete_byte(struct chance *chance, struct generated *listing)
{
    struct span span = {any_place(chance, listing), 1};
    if (span.at < listing->length)
        replace(listing, span, "", 0);
}

static void delete_run(struct chance *chance, struct generated *listing)
{
    struct span span = {any_place(chance, listing), 0};
    unsigned left = (unsigned)(listing->length - span.at);
    span.length = chance_below(chance, (left < 40 ? left : 40) + 1);
    replace(listing, span, "", 0);
}

static void put_nul(struct chance *chance, struct generated *listing)
{
    size_t at = any_place(chance, listing);
    insert(listing, at, "\0", 1);
}

static void put_cr(struct chance *chance, struct generated *listing)
{
    struct span line = any_line(chance, listing);
    insert(listing, line.at + line.length, "\r", 1);
}

static void cut_off(struct chance *chance, struct generated *listing)
{
    listing->length = any_place(chance, listing);
}

static void rubbish(struct chance *chance, struct generated *listing)
{
    listing->length = chance_below(chance, 60);
    for (size_t at = 0; at < listing->length; at++)
        listing->bytes[at] = any_byte(chance);
}

static void nothing_at_all(struct chance *chance, struct generated *listing)
{
    (void)chance;
    listing->length = 0;
}

/* ---- lines ---- */

/* Takes a line out, its LF too. */
static void cut_line(struct generated *listing, struct span line)
{
    if (line.at + line.length < listing->length)
        line.length++;
    replace(listing, line, "", 0);
}

static void drop_line(struct chance *chance, struct generated *listing)
{
    cut_line(listing, any_line(chance, listing));
}

static void double_line(struct chance *chance, struct generated *listing)
{
    struct span line = any_line(chance, listing);
    uint8_t copy[4096];
    if (line.at + line.length < listing->length)
        line.length++;
    if (line.length > sizeof copy)
        return;
    memcpy(copy, listing->bytes + line.at, line.length);
    size_t at = line.at;
    if (chance_part(chance, 1, 2))
        at = any_line(chance, listing).at;
    insert(listing, at, copy, line.length);
}

static void swap_lines(struct chance *chance, struct generated *listing)
{
    struct span line = any_line(chance, listing);
    uint8_t copy[4096];
    if (line.at + line.length < listing->length)
        line.length++;
    if (line.length > sizeof copy)
        return;
    memcpy(copy, listing->bytes + line.at, line.length);
    replace(listing, line, "", 0);
    insert(listing, any_line(chance, listing).at, copy, line.length);
}

static void no_last_lf(struct chance *chance, struct generated *listing)
{
    (void)chance;
    if (listing->length > 0)
        listing->length--;
}

static void empty_line(struct chance *chance, struct generated *listing)
{
    insert(listing, any_line(chance, listing).at, "\n", 1);
}

static void no_end(struct chance *chance, struct generated *listing)
{
    (void)chance;
    unsigned lines = line_number(listing);
    listing->length = line_of(listing, lines == 0 ? 0 : lines - 1).at;
}

static void after_end(struct chance *chance, struct generated *listing)
{
    static const char *const more[] = {
        "\n", "\n\n", "E", "EN", "EN\n", "MC 1 1 1 0\n", "MC", "PT 0 1 0 1\n", "OU 0 0\n", "OU", "FT 0\n", " ", "\r", "x",
    };
    if (chance_part(chance, 1, 6))
        insert(listing, listing->length, "\0", 1);
    else
        insert_word(listing, listing->length, any_word(chance, more, LENGTH_OF(more)));
}

static void second_head(struct chance *chance, struct generated *listing)
{
    static const char *const head[] = {
        "MC 1 1 1 0\n", "MC 3 1 1 0 1\n", "MC\n", "MC \n", "MC 65 1 1 0\n", "MC 1 1\n", "MC x",
        "MO 1 1 1 0\n", "MO 3 1 1 0 1\n", "MO\n", "MO \n", "MO 65 1 1 0\n", "MO 1 1\n", "MO x",
    };
    const char *word = any_word(chance, head, LENGTH_OF(head));
    size_t at = any_line(chance, listing).at;
    bool last = chance_part(chance, 1, 5);
    insert_word(listing, at, word);
    if (last) /* it is the last line, and has no LF */
        listing->length = at + (word[strlen(word) - 1] == '\n' ? strlen(word) - 1 : strlen(word));
}

static void join_two(struct chance *chance, struct generated *listing)
{
    uint8_t copy[2048];
    size_t length = listing->length < sizeof copy ? listing->length : sizeof copy;
    memcpy(copy, listing->bytes, length);
    size_t at = chance_below(chance, (unsigned)length + 1);
    insert(listing, listing->length, copy + at, length - at);
}

/* ---- fields ---- */

static void wrong_mark(struct chance *chance, struct generated *listing)
{
    static const char *const mark[] = {
        "MCX", "Mc", "mc", "M", "MC\t", "PTX", "pt", "P",  "PT\r", "DIX", "di", "D", "DI+", "ENX", "en",  "E",
        "EN1", "",   "SC", "UN", "CT",  ".i",  ".e", "FT", "MO",   "#",   "MC", "PT", "DI", "EN",  "\xC3\x84",
        "MOX", "mo", "O",  "OU", "OUX", "ou",  "OU0", "FTX", "ft", "F",
    };
    struct span line = any_line(chance, listing);
    replace_word(listing, field_of(listing, line, 0), any_word(chance, mark, LENGTH_OF(mark)));
}

static void wrong_number(struct chance *chance, struct generated *listing)
{
    struct span line = line_of(listing, 0);
    unsigned fields = field_number(listing, line);
    unsigned field = fields < 2 ? 0 : chance_from(chance, 1, fields - 1);
    replace_word(listing, field_of(listing, line, field), any_number(chance));
}

static void out_of_range(struct chance *chance, struct generated *listing)
{
    struct span line = line_of(listing, 0);
    unsigned fields = field_number(listing, line);
    unsigned field = fields < 2 ? 0 : chance_from(chance, 1, fields - 1);
    replace_word(listing, field_of(listing, line, field), far_number(chance));
}

/* Puts these words, led by a space, behind the first four numbers of the head line, whatever stood there. */
static void put_behind_width(struct generated *listing, const char *words)
{
    struct span line = line_of(listing, 0);
    struct span behind = {line.at + line.length, 0};
    if (field_number(listing, line) > 5) {
        behind.at = field_of(listing, line, 5).at - 1;
        behind.length = line.at + line.length - behind.at;
    }
    replace_word(listing, behind, words);
}

/* A fifth number that is above 1, or no number; now and then another number of the line is out of its range too. */
static void wrong_fifth(struct chance *chance, struct generated *listing)
{
    static const char *const fifth[] = {
        " 2",  " 2",    " 2",     " 2", " 3",  " 10", " 11", " 64", " 256", " 257", " 9999", " 01", " 01", " 00",  " 00",
        " 02", " 0001", " 10000", " x", " 1x", " -",  " -1", " +1", " 1\t", " .",   " ",     " ",   " ",   " 0x1", " 65537",
    };
    if (chance_part(chance, 1, 6))
        out_of_range(chance, listing);
    put_behind_width(listing, any_word(chance, fifth, LENGTH_OF(fifth)));
}

static void sixth_number(struct chance *chance, struct generated *listing)
{
    static const char *const both[] = {
        " 0 0", " 0 1", " 1 0", " 1 1", " 0 ", " 1 ", " 2 0", " 2 1", "  1", "  ", " 1 x", " 0 0 0",
    };
    put_behind_width(listing, any_word(chance, both, LENGTH_OF(both)));
}

static void tab_for_space(struct chance *chance, struct generated *listing)
{
    size_t at = any_place(chance, listing);
    for (size_t step = 0; step < listing->length; step++) {
        size_t here = (at + step) % listing->length;
        if (listing->bytes[here] == ' ') {
            listing->bytes[here] = '\t';
            return;
        }
    }
}

static void double_space(struct chance *chance, struct generated *listing)
{
    insert(listing, any_field(chance, listing).at, " ", 1);
}

static void leading_space(struct chance *chance, struct generated *listing)
{
    insert(listing, any_line(chance, listing).at, " ", 1);
}

static void trailing_space(struct chance *chance, struct generated *listing)
{
    struct span line = any_line(chance, listing);
    insert(listing, line.at + line.length, " ", 1);
}

static void empty_field(struct chance *chance, struct generated *listing)
{
    replace(listing, any_field(chance, listing), "", 0);
}

static void longer_field(struct chance *chance, struct generated *listing)
{
    struct span field = any_field(chance, listing);
    if (field.length == 0)
        return;
    uint8_t again = listing->bytes[field.at + field.length - 1];
    insert(listing, field.at + field.length, &again, 1);
}

static void shorter_field(struct chance *chance, struct generated *listing)
{
    struct span field = any_field(chance, listing);
    if (field.length == 0)
        return;
    field.length = 1;
    replace(listing, field, "", 0);
}

/* A character that is right in another field, or in none. */
static void wrong_character(struct chance *chance, struct generated *listing)
{
    static const char wrong[] = "-+.2x/,:*_OI\t\r\x01\x7F";
    struct span field = any_field(chance, listing);
    if (field.length == 0)
        return;
    size_t at = field.at + chance_below(chance, (unsigned)field.length);
    listing->bytes[at] = (uint8_t)wrong[chance_below(chance, sizeof wrong - 1)];
}

static void more_fields(struct chance *chance, struct generated *listing)
{
    static const char *const more[] = {" 0", " 1", " 01", " 0 0 0 0 0 0", " -", " +", " x"};
    struct span line = any_line(chance, listing);
    insert_word(listing, line.at + line.length, any_word(chance, more, LENGTH_OF(more)));
}

static void fewer_fields(struct chance *chance, struct generated *listing)
{
    struct span line = any_line(chance, listing);
    unsigned fields = field_number(listing, line);
    if (fields < 2)
        return;
    struct span field = field_of(listing, line, chance_from(chance, 1, fields - 1));
    field.at--;
    field.length++;
    replace(listing, field, "", 0);
}

static void swap_fields(struct chance *chance, struct generated *listing)
{
    struct span line = any_line(chance, listing);
    unsigned fields = field_number(listing, line);
    uint8_t copy[256];
    if (fields < 3)
        return;
    struct span field = field_of(listing, line, chance_from(chance, 1, fields - 2));
    if (field.length + 1 > sizeof copy)
        return;
    copy[0] = ' ';
    memcpy(copy + 1, listing->bytes + field.at, field.length);
    size_t length = field.length + 1;
    field.at--;
    field.length++;
    replace(listing, field, "", 0);
    line.length -= length;
    insert(listing, line.at + line.length, copy, length);
}

/* ---- rows ---- */

static void no_group(struct chance *chance, struct generated *listing)
{
    struct span line = a_row(chance, listing);
    fill_field(listing, field_of(listing, line, 2), '0');
}

/* Two or more `1` in next. */
static void two_nexts(struct chance *chance, struct generated *listing)
{
    struct span line = a_row(chance, listing);
    struct span field = field_of(listing, line, 3);
    for (unsigned more = chance_from(chance, 2, 4); more > 0 && field.length > 0; more--)
        listing->bytes[field.at + chance_below(chance, (unsigned)field.length)] = '1';
}

/* ---- several faults on one line: the order 3, 1, 2, 4, 5 ---- */

static void spoil_row(struct chance *chance, struct generated *listing, struct span line)
{
    bool empty = chance_part(chance, 1, 2);
    bool two = chance_part(chance, 1, 2);
    bool character = chance_part(chance, 1, 5);
    bool field_more = chance_part(chance, 1, 8);
    bool head = chance_part(chance, 1, 12);
    bool last = chance_part(chance, 1, 6);
    size_t before = listing->length;
    if (empty)
        fill_field(listing, field_of(listing, line, 2), '0');
    if (two)
        fill_field(listing, field_of(listing, line, 3), '1');
    if (character) {
        struct span field = field_of(listing, line, chance_from(chance, 1, field_number(listing, line) - 1));
        if (field.length > 0)
            listing->bytes[field.at] = 'x';
    }
    if (head)
        replace_word(listing, field_of(listing, line, 0), chance_part(chance, 1, 2) ? "MC" : "MO");
    if (field_more)
        insert(listing, line.at + line.length, " 1", 2);
    line.length += listing->length - before;
    if (last) /* no LF, and nothing behind it */
        listing->length = line.at + line.length;
}

static void spoilt_row(struct chance *chance, struct generated *listing)
{
    struct span line = a_row(chance, listing);
    spoil_row(chance, listing, line);
}

static void spoilt_head(struct chance *chance, struct generated *listing)
{
    for (unsigned more = chance_from(chance, 2, 4); more > 0; more--) {
        if (chance_part(chance, 2, 3))
            out_of_range(chance, listing);
        else
            wrong_number(chance, listing);
    }
    if (chance_part(chance, 1, 8))
        insert_word(listing, line_of(listing, 0).length, chance_part(chance, 1, 2) ? " " : " 1");
    if (chance_part(chance, 1, 8))
        listing->length = line_of(listing, 0).length;
}

/* One row more in a listing of 126 to 129, spoilt or not, somewhere near the end. */
static void spoilt_129th(struct chance *chance, struct generated *listing)
{
    uint8_t copy[256];
    generate_good(chance, GENERATE_MANY_ROWS, listing);
    struct span line = a_row(chance, listing);
    size_t length = line.length + 1;
    memcpy(copy, listing->bytes + line.at, length);
    unsigned lines = line_number(listing);
    line.at = line_of(listing, lines - 1 - chance_below(chance, 3)).at;
    insert(listing, line.at, copy, length);
    if (chance_part(chance, 2, 3))
        spoil_row(chance, listing, line);
}

/* One dichotomy more in a listing of 62 to 65, spoilt or not, somewhere near the end. */
static void spoilt_65th(struct chance *chance, struct generated *listing)
{
    uint8_t copy[256];
    struct span line = {0, 0};
    generate_good(chance, GENERATE_MANY_DICHOTOMIES, listing);
    if (!find_line(chance, listing, "DI", 2, &line))
        return;
    size_t length = line.length + 1;
    memcpy(copy, listing->bytes + line.at, length);
    unsigned lines = line_number(listing);
    line.at = line_of(listing, lines - 1 - chance_below(chance, 3)).at;
    insert(listing, line.at, copy, length);
    if (chance_part(chance, 1, 4))
        listing->bytes[line.at + 3] = 'x';
    if (chance_part(chance, 1, 8))
        insert(listing, line.at + line.length, " +", 2);
    if (chance_part(chance, 1, 8))
        listing->length = line.at + line.length;
}

/* ---- Moore machines ---- */

/* A listing of a Moore machine, or of none: this one if it is, else another small one. */
static void make_profile(struct chance *chance, bool moore, struct generated *listing)
{
    if (listing->moore != moore)
        generate_profile(chance, chance_part(chance, 1, 2) ? GENERATE_TINY : GENERATE_SMALL, moore, listing);
}

/* A Moore machine's `OU` line with all its fields; false if there is none, which other damage may have brought about. */
static bool an_outputs_line(struct chance *chance, struct generated *listing, struct span *line)
{
    make_profile(chance, true, listing);
    return find_line(chance, listing, "OU", 3, line) && line->length < 200;
}

/* A state without its line; now and then several states. */
static void no_outputs(struct chance *chance, struct generated *listing)
{
    struct span line;
    unsigned times = chance_part(chance, 3, 4) ? 1 : chance_from(chance, 2, 8);
    for (; times > 0 && an_outputs_line(chance, listing, &line); times--)
        cut_line(listing, line);
}

/* And two rows that clash. */
static void no_outputs_clash(struct chance *chance, struct generated *listing)
{
    char row[256];
    if (!listing->moore || listing->states < 2)
        generate_profile(chance, GENERATE_SMALL, true, listing);
    for (unsigned next = 0; next < 2; next++)
        insert(listing, near_end(listing), row, make_row(listing, next, row));
    no_outputs(chance, listing);
}

/* And bytes after `EN`. */
static void no_outputs_after_end(struct chance *chance, struct generated *listing)
{
    no_outputs(chance, listing);
    after_end(chance, listing);
}

/* Spoils what stands behind the number of an `OU` line, and answers the line as it then is. */
static struct span spoil_outputs(struct chance *chance, struct generated *listing, struct span line)
{
    static const char *const more[] = {" 0", " ", " 1", " x", " 0 0 0 0 0"};
    struct span field = field_of(listing, line, 2);
    struct span first = {field.at, 1};
    struct span with_space = {field.at - 1, field.length + 1};
    size_t before = listing->length;
    switch (chance_below(chance, 5)) {
    case 0:
        replace_word(listing, first, "");
        break;
    case 1:
        insert(listing, field.at, "1", 1);
        break;
    case 2: {
        uint8_t other = (uint8_t)"x2+.\t\r"[chance_below(chance, 6)];
        listing->bytes[field.at + chance_below(chance, (unsigned)field.length)] = other;
        break;
    }
    case 3:
        replace_word(listing, with_space, "");
        break;
    case 4:
        insert_word(listing, line.at + line.length, any_word(chance, more, LENGTH_OF(more)));
        break;
    }
    line.length += listing->length - before;
    return line;
}

static void wrong_outputs(struct chance *chance, struct generated *listing)
{
    struct span line;
    if (an_outputs_line(chance, listing, &line) && field_of(listing, line, 2).length > 0)
        spoil_outputs(chance, listing, line);
}

/* A line behind this one has the same state: it is the same line, or its rest is spoilt, or it is the last and has no LF. */
static void second_outputs(struct chance *chance, struct generated *listing)
{
    struct span line;
    uint8_t copy[256];
    bool spoilt = chance_part(chance, 1, 2);
    bool last = chance_part(chance, 1, 4);
    if (!an_outputs_line(chance, listing, &line) || field_of(listing, line, 2).length == 0)
        return;
    size_t length = line.length;
    memcpy(copy, listing->bytes + line.at, length);
    copy[length] = '\n';
    struct span behind = line_after(listing, line);
    struct span other = any_line(chance, listing);
    line.at = other.at > behind.at ? other.at : behind.at;
    if (line.at > listing->length)
        return;
    insert(listing, line.at, copy, length + 1);
    if (spoilt)
        line = spoil_outputs(chance, listing, line);
    if (last)
        listing->length = line.at + line.length;
}

/* The last line is a state's `OU` line, which has no LF. */
static void unended_outputs(struct chance *chance, struct generated *listing)
{
    struct span line;
    if (an_outputs_line(chance, listing, &line))
        listing->length = line.at + line.length;
}

/* An `OU` line among the rows of a machine that is no Moore machine, good for one that is, or not. */
static void outputs_under_mc(struct chance *chance, struct generated *listing)
{
    static const char *const spoilt[] = {"OU", "OU ", "OU x", "OU 0", "OU 0 ", "OU 0 0 0", "OU 00 0", "OU 64 1", "OU 0 x"};
    char good[64] = "OU 0 ";
    make_profile(chance, false, listing);
    memset(good + 5, "01-"[chance_below(chance, 3)], listing->outputs);
    const char *word = chance_part(chance, 1, 2) ? good : any_word(chance, spoilt, LENGTH_OF(spoilt));
    unsigned lines = line_number(listing);
    if (lines < 2)
        return;
    size_t at = line_of(listing, chance_from(chance, 1, lines - 1)).at;
    bool last = chance_part(chance, 1, 4);
    insert(listing, at, "\n", 1);
    insert_word(listing, at, word);
    if (last)
        listing->length = at + strlen(word);
}

/* An `OU` line before the head line, or for it. */
static void outputs_first(struct chance *chance, struct generated *listing)
{
    static const char *const first[] = {"OU 0 0\n", "OU\n", "OU x\n", "OU 0 1 1\n"};
    if (chance_part(chance, 1, 2))
        insert_word(listing, 0, any_word(chance, first, LENGTH_OF(first)));
    else
        replace_word(listing, field_of(listing, line_of(listing, 0), 0), "OU");
}

static void put_number(unsigned number, char **word)
{
    if (number >= 10)
        put_number(number / 10, word);
    *(*word)++ = (char)('0' + number % 10);
}

/* The first state that is not there, one far off, or one that a small number could be taken for; now and then the outputs are
   wrong too, which comes first. */
static void no_such_state(struct chance *chance, struct generated *listing)
{
    static const unsigned far[] = {1, 2, 64, 65, 128, 256, 257, 1000, 9999};
    struct span line;
    char word[8] = "";
    char *end = word;
    if (!an_outputs_line(chance, listing, &line))
        return;
    unsigned state = listing->states;
    if (chance_part(chance, 1, 2))
        state += far[chance_below(chance, LENGTH_OF(far))];
    put_number(state < 9999 ? state : 9999, &end);
    if (chance_part(chance, 1, 4) && field_of(listing, line, 2).length > 0)
        line = spoil_outputs(chance, listing, line);
    replace_word(listing, field_of(listing, line, 1), word);
}

static void wrong_state_number(struct chance *chance, struct generated *listing)
{
    static const char *const number[] = {
        "", "00", "01", "000", "007", "x", "-1", "+0", "+1", "-", "1x", "1.", "0x0", "0\t", "10000", "00000", "65536",
    };
    struct span line;
    if (an_outputs_line(chance, listing, &line))
        replace_word(listing, field_of(listing, line, 1), any_word(chance, number, LENGTH_OF(number)));
}

/* A row that would fit the other kind of machine, with outputs or without; or a head line of the other kind. */
static void other_profile(struct chance *chance, struct generated *listing)
{
    char outputs[64] = " ";
    if (chance_part(chance, 1, 4)) {
        replace_word(listing, field_of(listing, line_of(listing, 0), 0), listing->moore ? "MC" : "MO");
        return;
    }
    struct span line = a_row(chance, listing);
    memset(outputs + 1, "01-"[chance_below(chance, 3)], listing->outputs);
    if (listing->moore) {
        insert_word(listing, line.at + line.length, outputs);
        return;
    }
    struct span field = field_of(listing, line, 4);
    field.at--;
    field.length++;
    replace(listing, field, "", 0);
}

/* ---- flow tables ---- */

/* A flow table of at least so many states, 1 or 2: this one if it is, else another one. */
static void make_flow(struct chance *chance, unsigned states, struct generated *listing)
{
    while (!listing->flow || listing->states < states)
        generate_profile(chance, chance_part(chance, 1, 6) ? GENERATE_FLOW_CROWD : GENERATE_FLOW, false, listing);
}

/* The line of a state of a flow table; false if there is none, which other damage may have brought about. */
static bool flow_line(const struct generated *listing, unsigned state, struct span *line)
{
    *line = line_of(listing, 1 + state);
    return line->at < listing->length && has_mark(listing, *line, "FT");
}

/* Puts a word, or a state's number, into a state's field of this column, if it has one. */
static void put_next(struct generated *listing, unsigned state, unsigned column, const char *word)
{
    struct span line;
    if (flow_line(listing, state, &line) && column + 1 < field_number(listing, line))
        replace_word(listing, field_of(listing, line, column + 1), word);
}

static void put_next_state(struct generated *listing, unsigned state, unsigned column, unsigned next)
{
    char word[8] = "";
    char *end = word;
    put_number(next, &end);
    put_next(listing, state, column, word);
}

/* A destination that is not stable: its own entry is a dash, or another state, and a state goes to it. */
static void destabilise(struct chance *chance, struct generated *listing)
{
    struct span line;
    if (listing->states < 2 || !flow_line(listing, 0, &line) || field_number(listing, line) < 2)
        return;
    unsigned column = chance_below(chance, field_number(listing, line) - 1);
    unsigned destination = chance_below(chance, listing->states);
    unsigned from = (destination + chance_from(chance, 1, listing->states - 1)) % listing->states;
    unsigned other = (destination + chance_from(chance, 1, listing->states - 1)) % listing->states;
    if (chance_part(chance, 1, 2))
        put_next(listing, destination, column, "-");
    else
        put_next_state(listing, destination, column, other);
    put_next_state(listing, from, column, destination);
}

/* Once, or most often several times, in which case the lowest line decides. */
static void unstable(struct chance *chance, struct generated *listing)
{
    make_flow(chance, 2, listing);
    for (unsigned times = chance_part(chance, 1, 4) ? 1 : chance_from(chance, 2, 4); times > 0; times--)
        destabilise(chance, listing);
}

static void unstable_after_end(struct chance *chance, struct generated *listing)
{
    unstable(chance, listing);
    after_end(chance, listing);
}

/* A table of about 64 dichotomies, in which a destination is not stable. */
static void unstable_crowd(struct chance *chance, struct generated *listing)
{
    generate_profile(chance, GENERATE_FLOW_CROWD, false, listing);
    destabilise(chance, listing);
}

/* The same with all destinations stable, and bytes after `EN`. */
static void crowd_after_end(struct chance *chance, struct generated *listing)
{
    generate_profile(chance, GENERATE_FLOW_CROWD, false, listing);
    after_end(chance, listing);
}

/* Lines missing, and an `EN` that may be malformed; now and then a destination is not stable too. */
static void too_few_lines(struct chance *chance, struct generated *listing)
{
    static const char *const end[] = {"EN\n", "EN\n", "EN\n", "EN \n", "EN 1\n", "EN x y\n", "EN", "EN", "EN 1"};
    struct span line;
    make_flow(chance, 2, listing);
    if (chance_part(chance, 1, 3))
        destabilise(chance, listing);
    for (unsigned times = chance_from(chance, 1, listing->states - 1); times > 0; times--)
        if (find_line(chance, listing, "FT", field_number(listing, line_of(listing, 1)), &line) && line_number(listing) > 3)
            cut_line(listing, line);
    listing->length = near_end(listing);
    insert_word(listing, listing->length, any_word(chance, end, LENGTH_OF(end)));
}

/* Spoils a line of a flow table, and answers the line as it then is. */
static struct span spoil_flow(struct chance *chance, struct generated *listing, struct span line)
{
    static const char *const more[] = {" 0", " -", " ", " x", " 0 0 0 0 0 0 0 0 0 0 0 0 0 0 0 0"};
    struct span behind_mark = {line.at + 2, line.length - 2};
    size_t before = listing->length;
    switch (chance_below(chance, 3)) {
    case 0:
        replace_word(listing, behind_mark, "");
        break;
    case 1:
        insert_word(listing, line.at + line.length, any_word(chance, more, LENGTH_OF(more)));
        break;
    case 2:
        replace_word(listing, field_of(listing, line, 1), chance_part(chance, 1, 2) ? "x" : "64");
        break;
    }
    line.length += listing->length - before;
    return line;
}

/* The line as it is or spoilt; now and then it is the last one and has no LF. */
static void spoil_or_end(struct chance *chance, struct generated *listing, struct span line)
{
    bool spoilt = chance_part(chance, 2, 5);
    bool last = chance_part(chance, 1, 4);
    if (spoilt)
        line = spoil_flow(chance, listing, line);
    if (last)
        listing->length = line.at + line.length;
}

/* Behind the lines of all states one more, a copy of one of them, good or not. */
static void too_many_lines(struct chance *chance, struct generated *listing)
{
    struct span line;
    uint8_t copy[256];
    make_flow(chance, 1, listing);
    if (chance_part(chance, 1, 4))
        destabilise(chance, listing);
    if (!flow_line(listing, chance_below(chance, listing->states), &line) || line.length + 1 > sizeof copy)
        return;
    size_t length = line.length + 1;
    memcpy(copy, listing->bytes + line.at, length);
    line.at = near_end(listing);
    insert(listing, line.at, copy, length);
    spoil_or_end(chance, listing, line);
}

/* A row or a dichotomy that fits the machine, or one that is malformed, with its LF. */
static size_t make_other(struct chance *chance, const struct generated *listing, bool good, char line[256])
{
    static const char *const bad[] = {"PT\n", "PT x\n", "PT 0 0 0 0 0\n", "PT \n", "DI\n", "DI x\n", "DI \n", "DI + -\n"};
    if (!good) {
        const char *word = any_word(chance, bad, LENGTH_OF(bad));
        memcpy(line, word, strlen(word));
        return strlen(word);
    }
    if (chance_part(chance, 1, 2))
        return make_row(listing, listing->states, line);
    memcpy(line, "DI ", 3);
    memset(line + 3, "+-."[chance_below(chance, 3)], listing->states);
    line[3 + listing->states] = '\n';
    return 3 + listing->states + 1;
}

/* A row or a dichotomy somewhere behind the first line of a flow table, good or malformed or without LF. */
static void row_beside_flow(struct chance *chance, struct generated *listing)
{
    char other[256];
    make_flow(chance, 1, listing);
    bool last = chance_part(chance, 1, 4);
    size_t length = make_other(chance, listing, chance_part(chance, 1, 2), other);
    size_t at = line_of(listing, 2 + chance_below(chance, listing->states)).at;
    insert(listing, at, other, length);
    if (last)
        listing->length = at + length - 1;
}

/* A row or a dichotomy before the first line of a flow table, which may be spoilt or without LF. */
static void flow_beside_row(struct chance *chance, struct generated *listing)
{
    char other[256];
    struct span line;
    make_flow(chance, 1, listing);
    size_t length = make_other(chance, listing, true, other);
    bool there = flow_line(listing, 0, &line);
    insert(listing, line.at, other, length);
    line.at += length;
    if (there)
        spoil_or_end(chance, listing, line);
}

/* A line of a flow table among those of a Moore machine, or a flow table whose head line is `MO`. */
static void flow_under_mo(struct chance *chance, struct generated *listing)
{
    static const char *const lines[] = {"FT 0\n", "FT - 0 -\n", "FT\n", "FT x\n", "FT 64\n"};
    struct span line;
    if (chance_part(chance, 1, 2)) {
        make_profile(chance, true, listing);
        line = line_of(listing, 1 + chance_below(chance, line_number(listing) + 1));
        insert_word(listing, line.at, any_word(chance, lines, LENGTH_OF(lines)));
        return;
    }
    make_flow(chance, 1, listing);
    replace_word(listing, field_of(listing, line_of(listing, 0), 0), "MO");
    if (flow_line(listing, 0, &line))
        spoil_or_end(chance, listing, line);
}

/* A line of a flow table before the head line, or for it. */
static void flow_first(struct chance *chance, struct generated *listing)
{
    static const char *const first[] = {"FT 0\n", "FT\n", "FT x\n", "FT - -\n"};
    if (chance_part(chance, 1, 2))
        insert_word(listing, 0, any_word(chance, first, LENGTH_OF(first)));
    else
        replace_word(listing, field_of(listing, line_of(listing, 0), 0), "FT");
}

/* A field that is no state's number and no dash: n, above n, or no number. */
static void wrong_next(struct chance *chance, struct generated *listing)
{
    static const char *const number[] = {
        "64", "65", "9999", "128", "", "00", "01", "007", "x", "-1", "+1", "--", "-0", "0-", "1x", "10000", "0\t", ".",
    };
    struct span line;
    make_flow(chance, 1, listing);
    if (chance_part(chance, 1, 4))
        destabilise(chance, listing);
    unsigned state = chance_below(chance, listing->states);
    if (!flow_line(listing, state, &line) || field_number(listing, line) < 2)
        return;
    unsigned column = chance_below(chance, field_number(listing, line) - 1);
    if (chance_part(chance, 1, 2))
        put_next_state(listing, state, column, listing->states + (chance_part(chance, 3, 4) ? 0 : 1));
    else
        put_next(listing, state, column, any_word(chance, number, LENGTH_OF(number)));
}

/* A line whose fields are none, or one too few, or up to 16 too many. */
static void wrong_columns(struct chance *chance, struct generated *listing)
{
    struct span line;
    make_flow(chance, 1, listing);
    if (chance_part(chance, 1, 4))
        destabilise(chance, listing);
    if (!flow_line(listing, chance_part(chance, 1, 3) ? 0 : chance_below(chance, listing->states), &line))
        return;
    unsigned columns = field_number(listing, line) - 1;
    struct span behind_mark = {line.at + 2, line.length - 2};
    struct span last = field_of(listing, line, columns);
    last.at--;
    last.length++;
    unsigned style = chance_below(chance, 4);
    if (style == 0)
        replace_word(listing, behind_mark, "");
    else if (style == 1)
        replace_word(listing, last, "");
    for (unsigned more = columns; style == 2 && more < 17; more++) /* 17 */
        insert_word(listing, line.at + line.length, " 0");
    if (style == 3)
        insert_word(listing, line.at + line.length, chance_part(chance, 1, 2) ? " 0" : " -");
}

/* The last line is a state's line, which has no LF. */
static void unended_flow(struct chance *chance, struct generated *listing)
{
    struct span line;
    make_flow(chance, 1, listing);
    if (flow_line(listing, chance_below(chance, listing->states), &line))
        listing->length = line.at + line.length;
}

/* ---- the longest listings ---- */

/* 65,536 bytes or a few more or fewer: filled up behind the end, within a line, or with many lines. */
static void very_long(struct chance *chance, struct generated *listing)
{
    static const unsigned length[] = {65535, 65536, 65536, 65537, 65537, 65538, 69999};
    static const char fill[] = "0 \nx1";
    size_t wanted = length[chance_below(chance, LENGTH_OF(length))];
    if (listing->length > wanted)
        return;
    size_t more = wanted - listing->length;
    size_t at = listing->length;
    if (chance_part(chance, 1, 2)) {
        struct span line = any_line(chance, listing);
        at = line.at + line.length;
    }
    memmove(listing->bytes + at + more, listing->bytes + at, listing->length - at);
    memset(listing->bytes + at, fill[chance_below(chance, sizeof fill - 1)], more);
    listing->length = wanted;
}

/* Every kind of damage, and how often it is drawn: the weight is its share in the sum of all weights. */
static const struct {
    const char *name;
    unsigned weight;
    void (*spoil)(struct chance *chance, struct generated *listing);
} damages[GENERATE_DAMAGES] = {
    {"change a byte", 12, change_byte},
    {"insert a byte", 6, insert_byte},
    {"delete a byte", 6, delete_byte},
    {"delete a run", 3, delete_run},
    {"a NUL", 2, put_nul},
    {"a CR", 2, put_cr},
    {"cut off", 4, cut_off},
    {"rubbish", 2, rubbish},
    {"nothing at all", 1, nothing_at_all},
    {"drop a line", 4, drop_line},
    {"double a line", 4, double_line},
    {"swap lines", 4, swap_lines},
    {"no last LF", 3, no_last_lf},
    {"an empty line", 2, empty_line},
    {"no EN", 3, no_end},
    {"bytes after EN", 4, after_end},
    {"a second head", 15, second_head},
    {"two listings", 2, join_two},
    {"wrong mark", 5, wrong_mark},
    {"wrong number", 6, wrong_number},
    {"out of range", 6, out_of_range},
    {"a wrong fifth number", 17, wrong_fifth},
    {"a sixth number", 4, sixth_number},
    {"a tab", 2, tab_for_space},
    {"a double space", 2, double_space},
    {"a leading space", 2, leading_space},
    {"a trailing space", 2, trailing_space},
    {"an empty field", 3, empty_field},
    {"a longer field", 4, longer_field},
    {"a shorter field", 4, shorter_field},
    {"wrong character", 6, wrong_character},
    {"more fields", 3, more_fields},
    {"fewer fields", 3, fewer_fields},
    {"swap fields", 3, swap_fields},
    {"an empty group", 5, no_group},
    {"two nexts", 5, two_nexts},
    {"a spoilt row", 8, spoilt_row},
    {"a spoilt head", 4, spoilt_head},
    {"a spoilt 129th row", 3, spoilt_129th},
    {"a spoilt 65th DI", 3, spoilt_65th},
    {"no OU", 8, no_outputs},
    {"no OU, and a clash", 4, no_outputs_clash},
    {"no OU, more after EN", 4, no_outputs_after_end},
    {"a second OU", 9, second_outputs},
    {"an unended OU", 4, unended_outputs},
    {"OU under MC", 7, outputs_under_mc},
    {"OU first", 3, outputs_first},
    {"OU of no state", 6, no_such_state},
    {"a wrong OU number", 4, wrong_state_number},
    {"wrong OU outputs", 9, wrong_outputs},
    {"the other profile", 7, other_profile},
    {"unstable", 12, unstable},
    {"unstable, more after EN", 4, unstable_after_end},
    {"unstable crowd", 5, unstable_crowd},
    {"crowd, more after EN", 4, crowd_after_end},
    {"an FT too few", 9, too_few_lines},
    {"an FT too many", 8, too_many_lines},
    {"a row beside FT", 11, row_beside_flow},
    {"FT beside a row", 11, flow_beside_row},
    {"FT under MO", 6, flow_under_mo},
    {"FT first", 3, flow_first},
    {"a wrong next state", 9, wrong_next},
    {"wrong columns", 9, wrong_columns},
    {"an unended FT", 4, unended_flow},
    {"very long", 1, very_long},
};

const char *generate_damage_name(unsigned damage)
{
    return damages[damage].name;
}

unsigned generate_draw_damage(struct chance *chance)
{
    unsigned sum = 0;
    for (unsigned damage = 0; damage < GENERATE_DAMAGES; damage++)
        sum += damages[damage].weight;
    unsigned at = chance_below(chance, sum);
    unsigned damage = 0;
    while (at >= damages[damage].weight) {
        at -= damages[damage].weight;
        damage++;
    }
    return damage;
}

void generate_damage(struct chance *chance, unsigned damage, struct generated *listing)
{
    damages[damage].spoil(chance, listing);
}
