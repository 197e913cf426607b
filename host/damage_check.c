/* Damaged checks by chance: one function for each way in which codes or a cover can be spoilt; a listing is spoilt as elsewhere. */
#include "generate_check.h"

/* Where a line or a field stands in a text; a line's LF is not counted in its length. */
struct span {
    size_t at;
    size_t length;
};

/* ---- finding and changing ---- */

/* Puts these bytes in the place of those of the span, if the text can hold them. */
static void replace(struct check_text *text, struct span span, const void *bytes, size_t length)
{
    size_t behind = text->length - span.at - span.length;
    if (span.at + length + behind > GENERATE_BYTES)
        return;
    memmove(text->bytes + span.at + length, text->bytes + span.at + span.length, behind);
    memcpy(text->bytes + span.at, bytes, length);
    text->length = span.at + length + behind;
}

static void insert(struct check_text *text, size_t at, const void *bytes, size_t length)
{
    struct span nothing = {at, 0};
    replace(text, nothing, bytes, length);
}

static void cut(struct check_text *text, struct span span)
{
    replace(text, span, "", 0);
}

static unsigned line_number(const struct check_text *text)
{
    unsigned lines = 0;
    for (size_t at = 0; at < text->length; at++)
        lines += text->bytes[at] == '\n';
    return lines;
}

/* The line of this number, from 0; behind the last one, an empty span at the end. */
static struct span line_of(const struct check_text *text, unsigned number)
{
    struct span span = {0, 0};
    for (; span.at < text->length && number > 0; span.at++)
        number -= text->bytes[span.at] == '\n';
    while (span.at + span.length < text->length && text->bytes[span.at + span.length] != '\n')
        span.length++;
    return span;
}

/* A line that is there, in a text of at least one. */
static struct span any_line(struct chance *chance, const struct check_text *text)
{
    unsigned lines = line_number(text);
    return line_of(text, lines == 0 ? 0 : chance_below(chance, lines));
}

static struct span whole_line(const struct check_text *text, struct span line)
{
    line.length += line.at + line.length < text->length;
    return line;
}

/* A line's field of this number, from 0; behind the last one, an empty span at the line's end. */
static struct span field_of(const struct check_text *text, struct span line, unsigned number)
{
    struct span field = {line.at, 0};
    size_t end = line.at + line.length;
    for (; field.at < end && number > 0; field.at++)
        number -= text->bytes[field.at] == ' ';
    while (field.at + field.length < end && text->bytes[field.at + field.length] != ' ')
        field.length++;
    return field;
}

static const char *one_of(struct chance *chance, const char *const *words, unsigned number)
{
    return words[chance_below(chance, number)];
}

/* ---- any text ---- */

static void no_bytes(struct chance *chance, struct check_text *text)
{
    (void)chance;
    text->length = 0;
}

static void drop_line(struct chance *chance, struct check_text *text)
{
    cut(text, whole_line(text, any_line(chance, text)));
}

static void double_line(struct chance *chance, struct check_text *text)
{
    uint8_t copy[256];
    struct span line = whole_line(text, any_line(chance, text));
    if (line.length > sizeof copy)
        return;
    memcpy(copy, text->bytes + line.at, line.length);
    insert(text, line.at, copy, line.length);
}

/* A line and the one behind it. */
static void swap_lines(struct chance *chance, struct check_text *text)
{
    uint8_t copy[256];
    struct span line = whole_line(text, any_line(chance, text));
    if (line.length > sizeof copy)
        return;
    memcpy(copy, text->bytes + line.at, line.length);
    cut(text, line);
    struct span next = {line.at, 0};
    while (next.at + next.length < text->length && text->bytes[next.at + next.length] != '\n')
        next.length++;
    next = whole_line(text, next);
    insert(text, next.at + next.length, copy, line.length);
}

static void change_byte(struct chance *chance, struct check_text *text)
{
    static const char bytes[] = "01-.+ \n\r\t\0SCxipe29";
    unsigned what = chance_below(chance, 3);
    if (text->length == 0)
        return;
    struct span span = {chance_below(chance, (unsigned)text->length), what > 0};
    replace(text, span, &bytes[chance_below(chance, sizeof bytes - 1)], what < 2);
}

static void cut_off(struct chance *chance, struct check_text *text)
{
    if (text->length > 0)
        text->length = chance_below(chance, (unsigned)text->length);
}

static void no_lf(struct chance *chance, struct check_text *text)
{
    struct span line = chance_part(chance, 1, 2) ? any_line(chance, text) : line_of(text, line_number(text) - 1);
    struct span lf = {line.at + line.length, 1};
    if (lf.at < text->length)
        cut(text, lf);
}

/* A space or a field too many, or one too few, in a line. */
static void spoil_fields(struct chance *chance, struct check_text *text)
{
    static const char *const words[] = {" ", " 0", " 1", " -", " x", "\r", "\t"};
    struct span line = any_line(chance, text);
    struct span field = field_of(text, line, chance_below(chance, 3));
    const char *word = one_of(chance, words, LENGTH_OF(words));
    if (chance_part(chance, 1, 2))
        insert(text, chance_part(chance, 1, 2) ? line.at + line.length : field.at, word, strlen(word));
    else if (chance_part(chance, 1, 2) && field.at > line.at) {
        field.at--;
        field.length++;
        cut(text, field);
    } else {
        cut(text, field);
    }
}

/* ---- codes ---- */

static struct span code_of(const struct check_text *text, struct span line)
{
    return field_of(text, line, 2);
}

static void behind_codes(struct chance *chance, struct check_text *text)
{
    static const char *const words[] = {"\n", "x", "EN\n", "UN 0\nEN\n", "SC", "SC 0 0\n", " "};
    const char *word = one_of(chance, words, LENGTH_OF(words));
    struct span line = line_of(text, line_number(text) - 1);
    char copy[128] = "SC ";
    if (chance_part(chance, 1, 2)) {
        insert(text, text->length, word, strlen(word));
        return;
    }
    /* the line of one more state, or the last one again */
    struct span number = field_of(text, line, 1);
    struct span code = code_of(text, line);
    size_t length = 3;
    unsigned state = 0;
    for (size_t at = 0; at < number.length; at++)
        state = state * 10 + text->bytes[number.at + at] - '0';
    state += chance_part(chance, 3, 4);
    if (state >= 10)
        copy[length++] = (char)('0' + state / 10 % 10);
    copy[length++] = (char)('0' + state % 10);
    copy[length++] = ' ';
    if (code.length > 64)
        return;
    memcpy(copy + length, text->bytes + code.at, code.length);
    length += code.length;
    copy[length++] = '\n';
    insert(text, text->length, copy, length);
}

static void whole_report(struct chance *chance, struct check_text *text)
{
    const char *head = "CT 2 5 0 2 17\n";
    insert(text, 0, head, strlen(head));
    if (chance_part(chance, 1, 2))
        insert(text, text->length, "EN\n", 3);
}

static void other_mark(struct chance *chance, struct check_text *text)
{
    static const char *const words[] = {"", "S", "SCX", "sc", "SV", "CS", "UN", ".i", "\tSC"};
    const char *word = one_of(chance, words, LENGTH_OF(words));
    replace(text, field_of(text, any_line(chance, text), 0), word, strlen(word));
}

static void other_state(struct chance *chance, struct check_text *text)
{
    static const char *const words[] = {"", "x", "-1", "+1", "00000", "10000", "1.", "99", "0", "1", "2"};
    const char *word = one_of(chance, words, LENGTH_OF(words));
    struct span field = field_of(text, any_line(chance, text), 1);
    if (field.length == 0)
        return;
    if (chance_part(chance, 1, 3))
        insert(text, field.at, "0", 1);
    else if (chance_part(chance, 1, 2))
        text->bytes[field.at + field.length - 1] = (uint8_t)('0' + chance_below(chance, 10));
    else
        replace(text, field, word, strlen(word));
}

static void longer_code(struct chance *chance, struct check_text *text)
{
    struct span code = code_of(text, any_line(chance, text));
    size_t place = code.at + chance_below(chance, (unsigned)code.length + 1);
    insert(text, place, &"01"[chance_below(chance, 2)], 1);
}

static void shorter_code(struct chance *chance, struct check_text *text)
{
    struct span code = code_of(text, any_line(chance, text));
    code.length = code.length > 0;
    cut(text, code);
}

/* All codes, or one of them, with so many digits. */
static void long_codes(struct chance *chance, struct check_text *text)
{
    uint8_t digits[80];
    size_t length = chance_part(chance, 2, 3) ? 65 : chance_from(chance, 64, 80);
    bool all = chance_part(chance, 2, 3);
    unsigned lines = line_number(text);
    unsigned only = lines == 0 ? 0 : chance_below(chance, lines);
    for (unsigned line = 0; line < lines; line++) {
        if (!all && line != only)
            continue;
        for (size_t at = 0; at < sizeof digits; at++)
            digits[at] = (uint8_t)"01"[chance_below(chance, 2)];
        replace(text, code_of(text, line_of(text, line)), digits, length);
    }
}

static void other_digit(struct chance *chance, struct check_text *text)
{
    struct span code = code_of(text, any_line(chance, text));
    if (code.length > 0) {
        uint8_t other = (uint8_t)"2-xX. +\r"[chance_below(chance, 8)];
        text->bytes[code.at + chance_below(chance, (unsigned)code.length)] = other;
    }
}

/* A dash among codes, or a digit among dashes, on one line or on the first. */
static void dash_for_code(struct chance *chance, struct check_text *text)
{
    struct span line = chance_part(chance, 1, 3) ? line_of(text, 0) : any_line(chance, text);
    struct span code = code_of(text, line);
    bool dash = code.length == 1 && text->bytes[code.at] == '-';
    const char *word = dash ? (chance_part(chance, 1, 2) ? "0" : "--") : "-";
    if (code.length > 0)
        replace(text, code, word, strlen(word));
}

/* ---- covers ---- */

/* The first line whose mark is this; none where the text has none. */
static bool find_mark(const struct check_text *text, const char *mark, struct span *line)
{
    unsigned lines = line_number(text);
    for (unsigned number = 0; number < lines && number < 6; number++) {
        *line = line_of(text, number);
        struct span field = field_of(text, *line, 0);
        if (field.length == strlen(mark) && memcmp(text->bytes + field.at, mark, field.length) == 0)
            return true;
    }
    return false;
}

static void behind_end(struct chance *chance, struct check_text *text)
{
    static const char *const words[] = {"\n", "x", ".e\n", ".e", "# end\n", " ", "0 1\n"};
    const char *word = one_of(chance, words, LENGTH_OF(words));
    insert(text, text->length, word, strlen(word));
}

static void no_end(struct chance *chance, struct check_text *text)
{
    static const char *const words[] = {"", ".e", ".end\n", ".e \n", ".E\n", "EN\n", "\n", ".e\r\n", "e\n", ".p 0\n"};
    const char *word = one_of(chance, words, LENGTH_OF(words));
    if (line_number(text) > 0)
        replace(text, whole_line(text, line_of(text, line_number(text) - 1)), word, strlen(word));
}

/* A number of `.i`, `.o` or `.p` that is none, or a mark that is another. */
static void no_number(struct chance *chance, struct check_text *text)
{
    static const char *const marks[] = {".i", ".o", ".p"};
    static const char *const words[] = {"", "x", "-1", "00", "10000", "1 1", "3.", "99999999999999999999"};
    const char *word = one_of(chance, words, LENGTH_OF(words));
    struct span line;
    if (!find_mark(text, one_of(chance, marks, LENGTH_OF(marks)), &line))
        return;
    struct span field = field_of(text, line, 1);
    if (chance_part(chance, 1, 3))
        insert(text, field.at, "0", 1);
    else
        replace(text, field, word, strlen(word));
}

static void other_head(struct chance *chance, struct check_text *text)
{
    static const char *const marks[] = {".i", ".o", ".p"};
    static const char *const words[] = {"", ".", ".ii", "i", ".s", ".I", "#"};
    const char *word = one_of(chance, words, LENGTH_OF(words));
    struct span line;
    if (find_mark(text, one_of(chance, marks, LENGTH_OF(marks)), &line))
        replace(text, field_of(text, line, 0), word, strlen(word));
}

/* Another word in place of `.type fd`, or a line of it elsewhere. */
static void other_type(struct chance *chance, struct check_text *text)
{
    static const char *const words[] = {".type fr", ".type f", ".type", ".type fd ", ".type  fd", ".type FD", ".type fdr", ".types fd", ".type fd 1"};
    const char *word = one_of(chance, words, LENGTH_OF(words));
    struct span line;
    if (find_mark(text, ".type", &line) && chance_part(chance, 2, 3)) {
        replace(text, line, word, strlen(word));
        return;
    }
    insert(text, line_of(text, chance_below(chance, 6)).at, ".type fd\n", 9);
}

/* One row, behind the head. */
static bool any_row(struct chance *chance, const struct check_text *text, struct span *row)
{
    struct span line;
    unsigned lines = line_number(text);
    unsigned head = find_mark(text, ".type", &line) ? 4 : 3;
    if (lines < head + 2)
        return false;
    *row = line_of(text, head + chance_below(chance, lines - head - 1));
    return true;
}

static void spoil_row(struct chance *chance, struct check_text *text)
{
    static const char *const words[] = {"", "#", " ", "0 1", ".e", ".p 1"};
    const char *word = one_of(chance, words, LENGTH_OF(words));
    struct span row;
    if (!any_row(chance, text, &row))
        return;
    struct span field = field_of(text, row, chance_below(chance, 2));
    if (field.length == 0)
        return;
    switch (chance_below(chance, 7)) {
    case 0: {
        uint8_t other = (uint8_t)"2~xX.+*4"[chance_below(chance, 8)];
        text->bytes[field.at + chance_below(chance, (unsigned)field.length)] = other;
        break;
    }
    case 1:
        insert(text, field.at, &"01-"[chance_below(chance, 3)], 1);
        break;
    case 2:
        field.length = 1;
        cut(text, field);
        break;
    case 3:
        replace(text, row, word, strlen(word));
        break;
    case 4: /* the space elsewhere, so that one field is longer by one and the other shorter */
        if (row.length > 3) {
            struct span space = {field_of(text, row, 1).at - 1, 1};
            cut(text, space);
            insert(text, space.at + (chance_part(chance, 1, 2) ? 1 : -1), " ", 1);
        }
        break;
    case 5: /* a field more, often an empty one */
        insert(text, row.at + row.length, " 1", chance_from(chance, 1, 2));
        break;
    default:
        insert(text, field.at + chance_below(chance, (unsigned)field.length + 1), " ", 1);
        break;
    }
}

/* Of 257 rows and more, now and then the 257th is spoilt. */
static void spoil_257th(struct chance *chance, struct check_text *text)
{
    struct span line;
    unsigned head = find_mark(text, ".type", &line) ? 4 : 3;
    struct span row = line_of(text, head + 256);
    struct span lf = {row.at + row.length, 1};
    if (line_number(text) < head + 257 || !chance_part(chance, 1, 3))
        return;
    switch (chance_below(chance, 3)) {
    case 0:
        text->bytes[row.at] = 'x';
        break;
    case 1:
        insert(text, row.at + row.length, "0", 1);
        break;
    default:
        text->length = lf.at; /* no LF, and nothing behind */
        break;
    }
}

/* ---- covers before they are written ---- */

/* One or a few places more or fewer, in every row; now and then as many as the listing or the codes alone have. */
static unsigned misfit(struct chance *chance, unsigned places)
{
    unsigned more = chance_from(chance, 1, 4);
    if (more == 4)
        return chance_from(chance, 1, CHECK_DRAFT_PLACES);
    return chance_part(chance, 1, 2) && places > more ? places - more : places + more;
}

static void fill_places(struct check_cover *cover)
{
    for (unsigned row = 0; row < cover->rows; row++)
        for (unsigned place = 0; place < CHECK_DRAFT_PLACES; place++) {
            if (cover->input[row][place] == 0)
                cover->input[row][place] = '-';
            if (cover->output[row][place] == 0)
                cover->output[row][place] = '0';
        }
}

static void misfit_inputs(struct chance *chance, struct check_cover *cover)
{
    cover->inputs = misfit(chance, cover->inputs);
    fill_places(cover);
}

static void misfit_outputs(struct chance *chance, struct check_cover *cover)
{
    cover->outputs = misfit(chance, cover->outputs);
    fill_places(cover);
}

static void misfit_both(struct chance *chance, struct check_cover *cover)
{
    misfit_inputs(chance, cover);
    misfit_outputs(chance, cover);
}

/* `.i 0` or `.o 0`, with rows or without. */
static void no_places(struct chance *chance, struct check_cover *cover)
{
    if (chance_part(chance, 1, 2))
        cover->inputs = 0;
    else
        cover->outputs = 0;
    if (chance_part(chance, 1, 2))
        cover->rows = cover->said = 0;
}

static void wrong_said(struct chance *chance, struct check_cover *cover)
{
    unsigned more = chance_from(chance, 1, 4);
    if (chance_part(chance, 1, 2))
        cover->said = more == 4 ? chance_from(chance, 257, 9999) : cover->said + more;
    else
        cover->said = more == 4 || more > cover->said ? 0 : cover->said - more;
}

/* 255 to 300 rows; `.p` says as many, 256, or more; now and then they do not fit either. */
static void many_rows(struct chance *chance, struct check_cover *cover)
{
    unsigned rows = chance_part(chance, 2, 3) ? 257 : chance_from(chance, 255, 300);
    if (cover->rows == 0) {
        memset(cover->input[0], '-', sizeof cover->input[0]);
        memset(cover->output[0], '0', sizeof cover->output[0]);
        cover->rows = 1;
    }
    while (cover->rows < rows)
        check_double_row(chance, cover, chance_below(chance, cover->rows));
    cover->said = chance_part(chance, 1, 4) ? 256 : chance_part(chance, 1, 8) ? 9999 : cover->rows;
    if (chance_part(chance, 1, 3))
        misfit_both(chance, cover);
}

/* ---- the kinds ---- */

enum which { LISTING, CODES, COVER };

static const struct {
    const char *name;
    unsigned weight;
    enum which which;
    void (*spoil)(struct chance *chance, struct check_text *text);          /* the codes or the cover */
    void (*spoil_cover)(struct chance *chance, struct check_cover *cover); /* before it is written */
} damages[CHECK_DAMAGES] = {
    {"the listing", 14, LISTING, NULL, NULL},
    {"no codes", 2, CODES, no_bytes, NULL},
    {"a code line lost", 4, CODES, drop_line, NULL},
    {"a code line doubled", 3, CODES, double_line, NULL},
    {"code lines swapped", 3, CODES, swap_lines, NULL},
    {"behind the codes", 5, CODES, behind_codes, NULL},
    {"a whole report", 2, CODES, whole_report, NULL},
    {"another mark", 3, CODES, other_mark, NULL},
    {"another state", 5, CODES, other_state, NULL},
    {"fields of codes", 4, CODES, spoil_fields, NULL},
    {"a longer code", 3, CODES, longer_code, NULL},
    {"a shorter code", 3, CODES, shorter_code, NULL},
    {"65 bits", 4, CODES, long_codes, NULL},
    {"another digit", 3, CODES, other_digit, NULL},
    {"a dash for a code", 8, CODES, dash_for_code, NULL},
    {"codes without LF", 3, CODES, no_lf, NULL},
    {"a byte of the codes", 3, CODES, change_byte, NULL},
    {"codes cut off", 2, CODES, cut_off, NULL},
    {"no cover", 2, COVER, no_bytes, NULL},
    {"a cover line lost", 5, COVER, drop_line, NULL},
    {"a cover line doubled", 3, COVER, double_line, NULL},
    {"cover lines swapped", 5, COVER, swap_lines, NULL},
    {"behind .e", 5, COVER, behind_end, NULL},
    {"no .e", 6, COVER, no_end, NULL},
    {"no number", 7, COVER, no_number, NULL},
    {"another head", 4, COVER, other_head, NULL},
    {"another .type", 6, COVER, other_type, NULL},
    {"a spoilt row", 12, COVER, spoil_row, NULL},
    {"a byte of the cover", 4, COVER, change_byte, NULL},
    {"the cover cut off", 4, COVER, cut_off, NULL},
    {"an .i that does not fit", 9, COVER, NULL, misfit_inputs},
    {"an .o that does not fit", 9, COVER, NULL, misfit_outputs},
    {"neither fits", 5, COVER, NULL, misfit_both},
    {"no places", 5, COVER, NULL, no_places},
    {"a wrong .p", 10, COVER, NULL, wrong_said},
    {"many rows", 12, COVER, spoil_257th, many_rows},
};

const char *check_damage_name(unsigned damage)
{
    return damages[damage].name;
}

unsigned check_draw_damage(struct chance *chance)
{
    unsigned sum = 0;
    unsigned damage = 0;
    for (unsigned at = 0; at < CHECK_DAMAGES; at++)
        sum += damages[at].weight;
    for (unsigned at = chance_below(chance, sum); at >= damages[damage].weight; damage++)
        at -= damages[damage].weight;
    return damage;
}

void check_damage_cover(struct chance *chance, unsigned damage, struct check_cover *cover)
{
    if (damages[damage].spoil_cover != NULL)
        damages[damage].spoil_cover(chance, cover);
}

/* Spoilt as elsewhere, or another one whose rows most often clash. */
static void spoil_listing(struct chance *chance, struct generated *listing)
{
    if (chance_part(chance, 1, 4))
        generate_good(chance, GENERATE_CLASH, listing);
    else
        generate_damage(chance, generate_draw_damage(chance), listing);
}

void check_damage_texts(struct chance *chance, unsigned damage, struct generated_check *check)
{
    if (damages[damage].which == LISTING)
        spoil_listing(chance, &check->listing);
    else if (damages[damage].spoil != NULL)
        damages[damage].spoil(chance, damages[damage].which == CODES ? &check->codes : &check->cover);
}
