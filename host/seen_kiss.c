/* What a run of the comparison has seen of KISS2 texts, each judged from the text and the answer, whatever damage was meant. */
#include "seen_kiss.h"
#include "seen.h"
#include "second.h"

/* Texts that are read; refusals by why; orders: the line that decides has two faults, or wrong counts come too late or first. */
enum sort {
    READ_ONE_STATE,
    READ_WIDE,
    READ_64,
    READ_128,
    READ_THOUSAND,
    READ_FULL,
    READ_STAR_PRESENT,
    READ_STAR_LATER,
    READ_STAR_NEXT,
    READ_STAR_JOINED,
    READ_JOINED,
    READ_JOINED_APART,
    READ_RESET_FIRST,
    READ_RESET_OTHER,
    READ_RESET_UNUSED,
    READ_NO_RESET,
    READ_S_UNUSED,
    READ_P_JOINED,
    READ_NO_COUNTS,
    READ_R_BEFORE_I,
    READ_NAME_1,
    READ_NAME_31,
    READ_NAME_ODD,
    READ_NAME_DOT,
    NO_BYTES,
    NO_END,
    AFTER_END,
    REPEATED,
    LATE,
    ROW_EARLY,
    END_EARLY,
    UNENDED,
    UNKNOWN_MARK,
    BAD_NUMBER,
    BAD_RESET,
    BAD_END,
    BAD_FIELDS,
    BAD_EMPTY_LINE,
    BAD_INPUT,
    BAD_OUTPUTS,
    BAD_NAME,
    LONG_RESET,
    LONG_PRESENT,
    LONG_NEXT,
    LONG_32,
    COUNT_S,
    COUNT_P,
    COUNT_S_UNUSED,
    COUNT_P_JOINED,
    TOO_LONG,
    RANGE_I,
    RANGE_O,
    ROW_129,
    STATE_65,
    NO_STATE,
    CLASH,
    CLASH_JOINED,
    ORDER_3_1,
    ORDER_3_12,
    ORDER_3_2,
    ORDER_1_12,
    ORDER_1_2,
    ORDER_12_2,
    ORDER_S_P,
    ORDER_P_S,
    ORDER_LINES_COUNTS,
    ORDER_END_COUNTS,
    ORDER_COUNTS_6,
    SORTS
};

static struct seen_sort sorts[SORTS] = {
    [READ_ONE_STATE] = {"one state", 100, 0},
    [READ_WIDE] = {"more than 32 states", 200, 0},
    [READ_64] = {"64 states", 20, 0},
    [READ_128] = {"128 rows", 20, 0},
    [READ_THOUSAND] = {"1,000 lines and more", 40, 0},
    [READ_FULL] = {"65,536 bytes", 5, 0},
    [READ_STAR_PRESENT] = {"a present *", 500, 0},
    [READ_STAR_LATER] = {"a present * before a state named later", 200, 0},
    [READ_STAR_NEXT] = {"a next *", 500, 0},
    [READ_STAR_JOINED] = {"a present * where lines join", 100, 0},
    [READ_JOINED] = {"joined lines", 500, 0},
    [READ_JOINED_APART] = {"lines joined over other rows", 500, 0},
    [READ_RESET_FIRST] = {".r the first state of the lines", 200, 0},
    [READ_RESET_OTHER] = {".r another state of the lines", 500, 0},
    [READ_RESET_UNUSED] = {".r that no line names", 200, 0},
    [READ_NO_RESET] = {"no .r", 500, 0},
    [READ_S_UNUSED] = {".s that counts an unused .r", 100, 0},
    [READ_P_JOINED] = {".p before joining", 200, 0},
    [READ_NO_COUNTS] = {"neither .s nor .p", 500, 0},
    [READ_R_BEFORE_I] = {".r before .i", 200, 0},
    [READ_NAME_1] = {"a name of 1 byte", 200, 0},
    [READ_NAME_31] = {"a name of 31 bytes", 200, 0},
    [READ_NAME_ODD] = {"a name with odd bytes", 200, 0},
    [READ_NAME_DOT] = {"a name that begins with .", 100, 0},
    [NO_BYTES] = {"3, no bytes", 10, 0},
    [NO_END] = {"3, no .e", 100, 0},
    [AFTER_END] = {"3, bytes after .e", 100, 0},
    [REPEATED] = {"3, a header repeated", 200, 0},
    [LATE] = {"3, a header after a row", 200, 0},
    [ROW_EARLY] = {"3, a row without .i or .o", 200, 0},
    [END_EARLY] = {"3, .e without .i or .o", 100, 0},
    [UNENDED] = {"1, no LF", 100, 0},
    [UNKNOWN_MARK] = {"1, an unknown mark", 100, 0},
    [BAD_NUMBER] = {"1, a header's number", 100, 0},
    [BAD_RESET] = {"1, a bad .r", 100, 0},
    [BAD_END] = {"1, .e with more", 20, 0},
    [BAD_FIELDS] = {"1, the number of fields", 100, 0},
    [BAD_EMPTY_LINE] = {"1, an empty line", 20, 0},
    [BAD_INPUT] = {"1, an input", 100, 0},
    [BAD_OUTPUTS] = {"1, outputs", 100, 0},
    [BAD_NAME] = {"1, an empty name", 40, 0},
    [LONG_RESET] = {"12, a long .r", 60, 0},
    [LONG_PRESENT] = {"12, a long present state", 100, 0},
    [LONG_NEXT] = {"12, a long next state", 100, 0},
    [LONG_32] = {"12, a name of 32 bytes", 200, 0},
    [COUNT_S] = {"12, .s", 100, 0},
    [COUNT_P] = {"12, .p", 100, 0},
    [COUNT_S_UNUSED] = {"12, .s without an unused .r", 10, 0},
    [COUNT_P_JOINED] = {"12, .p after joining", 20, 0},
    [TOO_LONG] = {"2, too long", 20, 0},
    [RANGE_I] = {"2, .i out of range", 40, 0},
    [RANGE_O] = {"2, .o out of range", 40, 0},
    [ROW_129] = {"2, a 129th row", 100, 0},
    [STATE_65] = {"2, a 65th state", 100, 0},
    [NO_STATE] = {"2, .e with no state", 40, 0},
    [CLASH] = {"6", 200, 0},
    [CLASH_JOINED] = {"6 at a row of several lines", 40, 0},
    [ORDER_3_1] = {"3 before 1", 200, 0},
    [ORDER_3_12] = {"3 before 12", 100, 0},
    [ORDER_3_2] = {"3 before 2", 100, 0},
    [ORDER_1_12] = {"1 before 12", 100, 0},
    [ORDER_1_2] = {"1 before 2", 100, 0},
    [ORDER_12_2] = {"12 before 2", 40, 0},
    [ORDER_S_P] = {"12 for .s before .p", 40, 0},
    [ORDER_P_S] = {"12 for .p before .s", 40, 0},
    [ORDER_LINES_COUNTS] = {"a line before 12 for counts", 40, 0},
    [ORDER_END_COUNTS] = {"3 at the end before 12 for counts", 40, 0},
    [ORDER_COUNTS_6] = {"12 for counts before 6", 40, 0},
};

static struct second_kiss kiss;

/* ---- lines and fields ---- */

struct span {
    const uint8_t *at;
    size_t length;
    bool ended;
};

static struct span line_of(const uint8_t *text, size_t length, unsigned number)
{
    size_t at = 0;
    for (; at < length && number > 1; at++)
        number -= text[at] == '\n';
    struct span line = {text + at, 0, false};
    while (at + line.length < length && text[at + line.length] != '\n')
        line.length++;
    line.ended = at + line.length < length;
    return line;
}

/* The line at *at, which has its LF, and behind which *at then stands. */
static struct span next_line(const uint8_t **at)
{
    struct span line = {*at, 0, true};
    while (line.at[line.length] != '\n')
        line.length++;
    *at = line.at + line.length + 1;
    return line;
}

static unsigned field_number(struct span line)
{
    unsigned fields = 1;
    for (size_t at = 0; at < line.length; at++)
        fields += line.at[at] == ' ';
    return fields;
}

static struct span field_of(struct span line, unsigned number)
{
    struct span field = {line.at, 0, true};
    const uint8_t *end = line.at + line.length;
    for (; field.at < end && number > 0; field.at++)
        number -= *field.at == ' ';
    while (field.at + field.length < end && field.at[field.length] != ' ')
        field.length++;
    return field;
}

static bool is_word(struct span field, const char *word)
{
    return field.length == strlen(word) && memcmp(field.at, word, field.length) == 0;
}

/* ---- texts that are read ---- */

static bool is_odd(const struct second_kiss_name *name)
{
    for (size_t at = 0; at < name->length; at++)
        if (name->at[at] < ' ' || name->at[at] > '~')
            return true;
    return false;
}

static void note_names(bool sort[SORTS])
{
    for (unsigned state = 0; state < kiss.names; state++) {
        sort[READ_NAME_1] |= kiss.name[state].length == 1;
        sort[READ_NAME_31] |= kiss.name[state].length == 31;
        sort[READ_NAME_ODD] |= is_odd(&kiss.name[state]);
        sort[READ_NAME_DOT] |= kiss.name[state].at[0] == '.';
    }
}

static bool is_of_row(struct span line, const struct second_row *row)
{
    struct span next = field_of(line, 2);
    if (memcmp(row->input, line.at, kiss.machine.inputs) != 0 ||
        memcmp(row->outputs, field_of(line, 3).at, kiss.machine.outputs) != 0)
        return false;
    if (row->next == SECOND_NO_STATE)
        return is_word(next, "*");
    return kiss.name[row->next].length == next.length && memcmp(kiss.name[row->next].at, next.at, next.length) == 0;
}

/* A line of rows: a new name behind a present `*`, a row's second line behind another row's first. */
struct walk {
    bool star;
    unsigned names;
    unsigned rows;
};

static void note_line(struct span line, struct walk *walk, bool sort[SORTS])
{
    sort[READ_STAR_NEXT] |= is_word(field_of(line, 2), "*");
    for (unsigned field = 1; field <= 2; field++) {
        struct span name = field_of(line, field);
        bool fresh = walk->names < kiss.names && kiss.name[walk->names].at == name.at;
        walk->names += fresh;
        sort[READ_STAR_LATER] |= fresh && walk->star;
        walk->star = walk->star || (field == 1 && is_word(name, "*"));
    }
    unsigned at = 0;
    while (!is_of_row(line, &kiss.machine.row[at]))
        at++;
    sort[READ_JOINED_APART] |= at + 1 < walk->rows;
    walk->rows += at == walk->rows;
}

/* Whether `.r`'s name, state 0, is named by a line, and first. */
static void note_reset(const uint8_t *text, size_t length, unsigned headers, bool sort[SORTS])
{
    bool used = false;
    bool first = false;
    if (kiss.header_line[SECOND_KISS_R] == 0) {
        sort[READ_NO_RESET] = true;
        return;
    }
    const uint8_t *at = line_of(text, length, headers + 1).at;
    for (unsigned number = 0; number < kiss.lines && number < 300; number++) {
        struct span line = next_line(&at);
        for (unsigned field = 1; field <= 2; field++) {
            struct span name = field_of(line, field);
            bool is = name.length == kiss.name[0].length && memcmp(name.at, kiss.name[0].at, name.length) == 0;
            first = first || (is && number == 0 && field == 1);
            used = used || is;
        }
    }
    sort[first ? READ_RESET_FIRST : used ? READ_RESET_OTHER : READ_RESET_UNUSED] = true;
    sort[READ_R_BEFORE_I] = kiss.header_line[SECOND_KISS_R] < kiss.header_line[SECOND_KISS_I];
    sort[READ_S_UNUSED] = !used && kiss.header_line[SECOND_KISS_S] != 0;
}

static void note_read(const uint8_t *text, size_t length, bool sort[SORTS])
{
    unsigned headers = 0;
    struct walk walk = {false, kiss.header_line[SECOND_KISS_R] != 0, 0};
    for (unsigned header = 0; header < SECOND_KISS_HEADERS; header++)
        headers += kiss.header_line[header] != 0;
    note_reset(text, length, headers, sort);
    const uint8_t *at = line_of(text, length, headers + 1).at;
    for (unsigned number = 0; number < kiss.lines; number++)
        note_line(next_line(&at), &walk, sort);
    for (unsigned row = 0; row < kiss.machine.rows; row++)
        sort[READ_STAR_PRESENT] |= kiss.whole[row];
    note_names(sort);
    bool joined = kiss.lines > kiss.machine.rows;
    sort[READ_STAR_JOINED] = joined && sort[READ_STAR_PRESENT];
    sort[READ_JOINED] = joined;
    sort[READ_P_JOINED] = joined && kiss.header_line[SECOND_KISS_P] != 0;
    sort[READ_NO_COUNTS] = kiss.header_line[SECOND_KISS_P] == 0 && kiss.header_line[SECOND_KISS_S] == 0;
    sort[READ_ONE_STATE] = kiss.names == 1;
    sort[READ_WIDE] = kiss.names > 32;
    sort[READ_64] = kiss.names == SECOND_STATES;
    sort[READ_128] = kiss.machine.rows == SECOND_ROWS;
    sort[READ_THOUSAND] = kiss.lines >= 1000;
    sort[READ_FULL] = length == SECOND_BYTES;
}

/* ---- refusals ---- */

static int header_of(struct span line)
{
    static const char marks[] = "iospr";
    struct span mark = field_of(line, 0);
    for (int header = 0; header < SECOND_KISS_HEADERS; header++)
        if (mark.length == 2 && mark.at[0] == '.' && mark.at[1] == (uint8_t)marks[header])
            return header;
    return -1;
}

static enum sort sort_place(const uint8_t *text, size_t length, unsigned number)
{
    struct span line = line_of(text, length, number);
    if (length == 0)
        return NO_BYTES;
    if (kiss.faults == 0)
        return line.length == 0 && !line.ended && line.at == text + length ? NO_END : AFTER_END;
    int header = header_of(line);
    if (header >= 0)
        return kiss.header_line[header] != 0 ? REPEATED : LATE;
    return is_word(field_of(line, 0), ".e") ? END_EARLY : ROW_EARLY;
}

static bool has_form(struct span field, unsigned length)
{
    for (size_t at = 0; at < field.length; at++)
        if (field.at[at] != '0' && field.at[at] != '1' && field.at[at] != '-')
            return false;
    return field.length == length;
}

static enum sort sort_bad(struct span line)
{
    int header = header_of(line);
    if (!line.ended)
        return UNENDED;
    if (header == SECOND_KISS_R)
        return BAD_RESET;
    if (header >= 0)
        return BAD_NUMBER;
    if (is_word(field_of(line, 0), ".e"))
        return BAD_END;
    if (line.length > 0 && line.at[0] == '.')
        return UNKNOWN_MARK;
    if (line.length == 0)
        return BAD_EMPTY_LINE;
    if (field_number(line) != 4)
        return BAD_FIELDS;
    if (!has_form(field_of(line, 0), kiss.machine.inputs))
        return BAD_INPUT;
    return has_form(field_of(line, 3), kiss.machine.outputs) ? BAD_NAME : BAD_OUTPUTS;
}

static bool counts_clash(void)
{
    return second_find_conflict(&kiss.machine).number != SECOND_FINE;
}

static bool is_wrong_count(int header, unsigned right)
{
    return kiss.header_line[header] != 0 && kiss.header_number[header] != right;
}

static void note_counts(int header, bool sort[SORTS])
{
    bool both = is_wrong_count(SECOND_KISS_S, kiss.names) && is_wrong_count(SECOND_KISS_P, kiss.lines);
    unsigned said = kiss.header_number[header];
    bool states = header == SECOND_KISS_S;
    sort[states ? COUNT_S : COUNT_P] = true;
    sort[states ? ORDER_S_P : ORDER_P_S] = both;
    sort[COUNT_S_UNUSED] = states && kiss.header_line[SECOND_KISS_R] != 0 && said + 1 == kiss.names;
    sort[COUNT_P_JOINED] = !states && said == kiss.machine.rows;
    sort[ORDER_COUNTS_6] = counts_clash();
}

static void note_name(struct span line, bool sort[SORTS])
{
    int header = header_of(line);
    size_t most = 0;
    for (unsigned field = 1; field <= 2 && field < field_number(line); field++)
        most = field_of(line, field).length > most ? field_of(line, field).length : most;
    sort[LONG_32] = most == 32;
    sort[header >= 0 ? LONG_RESET : field_of(line, 1).length > 31 ? LONG_PRESENT : LONG_NEXT] = true;
}

static enum sort sort_limit(struct span line, unsigned number)
{
    int header = header_of(line);
    if (number == 0)
        return TOO_LONG;
    if (header >= 0)
        return header == SECOND_KISS_I ? RANGE_I : RANGE_O;
    if (is_word(field_of(line, 0), ".e"))
        return NO_STATE;
    return kiss.machine.rows == SECOND_ROWS ? ROW_129 : STATE_65;
}

/* A second fault of the line that decides; and counts that cannot agree with the lines, or do not where all were read. */
static void note_orders(unsigned number, unsigned line, bool sort[SORTS])
{
    unsigned faults = kiss.faults;
    bool place = faults & SECOND_KISS_PLACE;
    bool bad = faults & SECOND_KISS_BAD;
    bool name = faults & SECOND_KISS_NAME;
    bool limit = faults & SECOND_KISS_LIMIT;
    bool wrong = is_wrong_count(SECOND_KISS_S, kiss.names) || is_wrong_count(SECOND_KISS_P, kiss.lines);
    bool never = (kiss.header_line[SECOND_KISS_S] != 0 &&
                  (kiss.header_number[SECOND_KISS_S] == 0 || kiss.header_number[SECOND_KISS_S] > SECOND_STATES)) ||
                 (kiss.header_line[SECOND_KISS_P] != 0 && kiss.header_number[SECOND_KISS_P] > SECOND_BYTES / 8);
    sort[ORDER_3_1] = place && bad;
    sort[ORDER_3_12] = place && name;
    sort[ORDER_3_2] = place && limit;
    sort[ORDER_1_12] = !place && bad && name;
    sort[ORDER_1_2] = !place && bad && limit;
    sort[ORDER_12_2] = !place && !bad && name && limit;
    sort[ORDER_LINES_COUNTS] = faults != 0 && never;
    sort[ORDER_END_COUNTS] = faults == 0 && number == SECOND_PLACE && line > 1 && wrong;
}

static void note_refusal(const uint8_t *text, size_t length, unsigned number, unsigned at, bool sort[SORTS])
{
    struct span line = line_of(text, length, at);
    if (number != SECOND_CONFLICT && at > 0)
        note_orders(number, at, sort);
    if (number == SECOND_PLACE)
        sort[sort_place(text, length, at)] = true;
    if (number == SECOND_BAD_LINE)
        sort[sort_bad(line)] = true;
    if (number == SECOND_KISS && kiss.faults != 0)
        note_name(line, sort);
    if (number == SECOND_KISS && kiss.faults == 0)
        note_counts(header_of(line), sort);
    if (number == SECOND_LIMIT)
        sort[sort_limit(line, at)] = true;
    if (number == SECOND_CONFLICT) {
        sort[CLASH] = true;
        for (unsigned row = 0; row < kiss.machine.rows; row++)
            if (kiss.machine.row[row].line == at)
                sort[CLASH_JOINED] = second_size(kiss.machine.row[row].group) > 1 && !kiss.whole[row];
    }
}

void seen_kiss(const uint8_t *text, size_t length, int64_t answer)
{
    bool sort[SORTS] = {false};
    second_kiss_read(text, length, &kiss);
    if (answer >= 0)
        note_read(text, length, sort);
    else
        note_refusal(text, length, (unsigned)(-answer / 100000), (unsigned)(-answer % 100000), sort);
    for (unsigned at = 0; at < SORTS; at++)
        sorts[at].seen += sort[at];
}

void seen_kiss_print(void)
{
    seen_print_sorts("read with", sorts, 0, NO_BYTES);
    seen_print_sorts("refused", sorts, NO_BYTES, ORDER_3_1);
    seen_print_sorts("orders", sorts, ORDER_3_1, SORTS);
}

bool seen_kiss_each(void)
{
    return seen_enough(sorts, SORTS);
}
