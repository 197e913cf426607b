/* What a run of the comparison has seen of flow tables: the sorts of those that are answered, and of what is refused because of
   them, each judged from the listing and the answers alone. */
#include "seen.h"
#include "second.h"

/* Answered: by their sizes; with dashes or none; with no dichotomy, with 64; with equal ones from two columns; with sets that stand
   in another order than their destinations; with nothing unmet, with a dichotomy unmet; by what the cover is answered.
   Refused 1: for the columns, of the first line and of a later one; for a field; for a missing LF; and before 13.
   Refused 3: for each place, where the line is good, is spoilt, has no LF; and before 13 and 2.
   Refused 13: for a dash and for another state; where the destination's line is the earlier one, where it is the later one, where
   another column has its first line further down, where several lines go to one; before 2.
   Refused 2: with 65 dichotomies, with more. */
enum sort {
    TABLE,
    TABLE_1_STATE,
    TABLE_WIDE,
    TABLE_64,
    TABLE_1_COLUMN,
    TABLE_16_COLUMNS,
    TABLE_DASHES,
    TABLE_DENSE,
    TABLE_NOTHING_ASKED,
    TABLE_64_ASKED,
    TABLE_EQUAL,
    TABLE_LOWEST,
    TABLE_MANY_SETS,
    TABLE_ALL_MET,
    TABLE_RACE,
    TABLE_COVER,
    TABLE_COVER_RACE,
    TABLE_NO_COVER,
    BAD_NO_COLUMNS,
    BAD_17_COLUMNS,
    BAD_FEWER_COLUMNS,
    BAD_MORE_COLUMNS,
    BAD_STATE_N,
    BAD_STATE_ABOVE,
    BAD_FIELD,
    BAD_UNENDED,
    BAD_BEFORE_13,
    FIRST_LINE,
    UNDER_MO_GOOD,
    UNDER_MO_SPOILT,
    UNDER_MO_UNENDED,
    BEHIND_ROW_GOOD,
    BEHIND_ROW_SPOILT,
    BEHIND_ROW_UNENDED,
    BEHIND_DI_GOOD,
    BEHIND_DI_SPOILT,
    BEHIND_DI_UNENDED,
    ROW_BEHIND_GOOD,
    ROW_BEHIND_SPOILT,
    ROW_BEHIND_UNENDED,
    DI_BEHIND_GOOD,
    DI_BEHIND_SPOILT,
    DI_BEHIND_UNENDED,
    TOO_MANY_GOOD,
    TOO_MANY_SPOILT,
    TOO_MANY_UNENDED,
    TOO_MANY_BEFORE_13,
    TOO_FEW_GOOD,
    TOO_FEW_SPOILT,
    TOO_FEW_UNENDED,
    TOO_FEW_BEFORE_13,
    AFTER_END_BEFORE_13,
    AFTER_END_BEFORE_2,
    UNSTABLE,
    UNSTABLE_DASH,
    UNSTABLE_ELSEWHERE,
    UNSTABLE_EARLIER,
    UNSTABLE_LATER,
    UNSTABLE_COLUMNS,
    UNSTABLE_SEVERAL,
    UNSTABLE_BEFORE_2,
    LIMIT_65,
    LIMIT_MORE,
    SORTS
};

static struct seen_sort sorts[SORTS] = {
    [TABLE] = {"a flow table", 1000, 0},
    [TABLE_1_STATE] = {"1 state", 40, 0},
    [TABLE_WIDE] = {"more than 32 states", 300, 0},
    [TABLE_64] = {"64 states", 40, 0},
    [TABLE_1_COLUMN] = {"1 column", 100, 0},
    [TABLE_16_COLUMNS] = {"16 columns", 100, 0},
    [TABLE_DASHES] = {"a dash", 300, 0},
    [TABLE_DENSE] = {"no dash", 300, 0},
    [TABLE_NOTHING_ASKED] = {"no dichotomy", 100, 0},
    [TABLE_64_ASKED] = {"64 dichotomies", 40, 0},
    [TABLE_EQUAL] = {"equal dichotomies of two columns", 100, 0},
    [TABLE_LOWEST] = {"sets in another order than their destinations", 300, 0},
    [TABLE_MANY_SETS] = {"a column of five sets or more", 100, 0},
    [TABLE_ALL_MET] = {"no race", 300, 0},
    [TABLE_RACE] = {"a race", 100, 0},
    [TABLE_COVER] = {"a cover", 300, 0},
    [TABLE_COVER_RACE] = {"a cover and a race", 40, 0},
    [TABLE_NO_COVER] = {"a cover refused 9", 100, 0},
    [BAD_NO_COLUMNS] = {"1, no columns on the first line", 20, 0},
    [BAD_17_COLUMNS] = {"1, over 16 columns on the first line", 20, 0},
    [BAD_FEWER_COLUMNS] = {"1, fewer columns than the first line", 40, 0},
    [BAD_MORE_COLUMNS] = {"1, more columns than the first line", 40, 0},
    [BAD_STATE_N] = {"1, a state n", 40, 0},
    [BAD_STATE_ABOVE] = {"1, a state above n", 40, 0},
    [BAD_FIELD] = {"1, a field that is no number and no dash", 40, 0},
    [BAD_UNENDED] = {"1, an FT without LF", 40, 0},
    [BAD_BEFORE_13] = {"1 before 13", 20, 0},
    [FIRST_LINE] = {"3, an FT on line 1", 40, 0},
    [UNDER_MO_GOOD] = {"3, an FT under MO", 40, 0},
    [UNDER_MO_SPOILT] = {"3, a wrong FT under MO", 20, 0},
    [UNDER_MO_UNENDED] = {"3, an FT under MO without LF", 10, 0},
    [BEHIND_ROW_GOOD] = {"3, an FT behind a row", 40, 0},
    [BEHIND_ROW_SPOILT] = {"3, a wrong FT behind a row", 20, 0},
    [BEHIND_ROW_UNENDED] = {"3, an FT behind a row without LF", 20, 0},
    [BEHIND_DI_GOOD] = {"3, an FT behind a dichotomy", 40, 0},
    [BEHIND_DI_SPOILT] = {"3, a wrong FT behind a dichotomy", 20, 0},
    [BEHIND_DI_UNENDED] = {"3, an FT behind a dichotomy without LF", 20, 0},
    [ROW_BEHIND_GOOD] = {"3, a row behind an FT", 40, 0},
    [ROW_BEHIND_SPOILT] = {"3, a wrong row behind an FT", 40, 0},
    [ROW_BEHIND_UNENDED] = {"3, a row behind an FT without LF", 20, 0},
    [DI_BEHIND_GOOD] = {"3, a dichotomy behind an FT", 20, 0},
    [DI_BEHIND_SPOILT] = {"3, a wrong dichotomy behind an FT", 40, 0},
    [DI_BEHIND_UNENDED] = {"3, a dichotomy behind an FT without LF", 20, 0},
    [TOO_MANY_GOOD] = {"3, an FT too many", 40, 0},
    [TOO_MANY_SPOILT] = {"3, a wrong FT too many", 40, 0},
    [TOO_MANY_UNENDED] = {"3, an FT too many without LF", 20, 0},
    [TOO_MANY_BEFORE_13] = {"3, an FT too many, before 13", 20, 0},
    [TOO_FEW_GOOD] = {"3, an FT too few", 40, 0},
    [TOO_FEW_SPOILT] = {"3, an FT too few at a wrong EN", 40, 0},
    [TOO_FEW_UNENDED] = {"3, an FT too few at an EN without LF", 40, 0},
    [TOO_FEW_BEFORE_13] = {"3, an FT too few, before 13", 40, 0},
    [AFTER_END_BEFORE_13] = {"3 for bytes after EN, before 13", 40, 0},
    [AFTER_END_BEFORE_2] = {"3 for bytes after EN, before 2", 20, 0},
    [UNSTABLE] = {"13", 100, 0},
    [UNSTABLE_DASH] = {"13 for a dash", 40, 0},
    [UNSTABLE_ELSEWHERE] = {"13 for another state", 40, 0},
    [UNSTABLE_EARLIER] = {"13, the destination's line is earlier", 40, 0},
    [UNSTABLE_LATER] = {"13, the destination's line is later", 40, 0},
    [UNSTABLE_COLUMNS] = {"13, another line by columns", 40, 0},
    [UNSTABLE_SEVERAL] = {"13, several lines", 40, 0},
    [UNSTABLE_BEFORE_2] = {"13 before 2", 40, 0},
    [LIMIT_65] = {"2, 65 dichotomies", 40, 0},
    [LIMIT_MORE] = {"2, more than 65 dichotomies", 40, 0},
};

/* ---- the table, entry by entry ---- */

static bool is_destination(const struct second_machine *machine, unsigned column, unsigned state)
{
    bool is = false;
    for (unsigned from = 0; from < machine->flow_lines; from++)
        is = is || machine->flow[from][column] == (int)state;
    return is;
}

static unsigned sets_in(const struct second_machine *machine, unsigned column)
{
    unsigned sets = 0;
    for (unsigned state = 0; state < machine->states; state++)
        sets += is_destination(machine, column, state);
    return sets;
}

static unsigned asked_in(const struct second_machine *machine)
{
    unsigned asked = 0;
    for (unsigned column = 0; column < machine->columns; column++) {
        unsigned sets = sets_in(machine, column);
        asked += sets * (sets - 1) / 2;
    }
    return asked;
}

/* Whether this entry goes to a state that is not stable there, as far as the lines are read. */
static bool is_unstable(const struct second_machine *machine, unsigned state, unsigned column)
{
    int next = machine->flow[state][column];
    return next != SECOND_NO_STATE && (unsigned)next < machine->flow_lines && machine->flow[next][column] != next;
}

static bool has_unstable(const struct second_machine *machine)
{
    bool has = false;
    for (unsigned state = 0; state < machine->flow_lines; state++)
        for (unsigned column = 0; column < machine->columns; column++)
            has = has || is_unstable(machine, state, column);
    return has;
}

/* ---- answers ---- */

static unsigned count_dashes(const struct second_machine *machine)
{
    unsigned dashes = 0;
    for (unsigned state = 0; state < machine->states; state++)
        for (unsigned column = 0; column < machine->columns; column++)
            dashes += machine->flow[state][column] == SECOND_NO_STATE;
    return dashes;
}

/* Whether the lowest states of a column's sets go to destinations that do not ascend. */
static bool is_out_of_order(const struct second_machine *machine, unsigned column)
{
    int last = SECOND_NO_STATE;
    bool out = false;
    for (unsigned state = 0; state < machine->states; state++) {
        int next = machine->flow[state][column];
        bool lowest = next != SECOND_NO_STATE;
        for (unsigned before = 0; before < state; before++)
            lowest = lowest && machine->flow[before][column] != next;
        out = out || (lowest && next < last);
        last = lowest ? next : last;
    }
    return out;
}

static bool has_equal(const struct second_machine *machine)
{
    bool equal = false;
    for (unsigned one = 0; one < machine->dichotomies; one++)
        for (unsigned other = 0; other < one; other++)
            equal = equal || (machine->dichotomy[one].first == machine->dichotomy[other].first &&
                              machine->dichotomy[one].second == machine->dichotomy[other].second);
    return equal;
}

/* Whether the code leaves a dichotomy unmet. */
static bool has_race(const struct second_machine *machine)
{
    static struct second_requirements drawn;
    struct second_code code;
    bool race = false;
    second_draw_up(machine, &drawn);
    second_build_code(&drawn, machine->states, machine->width, &code);
    for (unsigned r = drawn.pairs_groups; r < drawn.number; r++)
        race = race || second_met_by(drawn.list[r], &code) == SECOND_NO_BIT;
    return race;
}

static void sort_table(const struct second_machine *machine, int64_t cover, bool sort[SORTS])
{
    unsigned asked = asked_in(machine);
    bool race = machine->width > 0 && has_race(machine); /* with width 0 all is met, else it is refused 7 */
    sort[TABLE] = true;
    sort[TABLE_1_STATE] = machine->states == 1;
    sort[TABLE_WIDE] = machine->states > 32;
    sort[TABLE_64] = machine->states == 64;
    sort[TABLE_1_COLUMN] = machine->columns == 1;
    sort[TABLE_16_COLUMNS] = machine->columns == 16;
    sort[TABLE_DASHES] = count_dashes(machine) > 0;
    sort[TABLE_DENSE] = count_dashes(machine) == 0;
    sort[TABLE_NOTHING_ASKED] = asked == 0;
    sort[TABLE_64_ASKED] = asked == 64;
    sort[TABLE_EQUAL] = has_equal(machine);
    for (unsigned column = 0; column < machine->columns; column++) {
        sort[TABLE_LOWEST] |= is_out_of_order(machine, column);
        sort[TABLE_MANY_SETS] |= sets_in(machine, column) >= 5;
    }
    sort[TABLE_ALL_MET] = asked > 0 && !race;
    sort[TABLE_RACE] = race;
    sort[TABLE_COVER] = cover >= 0;
    sort[TABLE_COVER_RACE] = cover >= 0 && race;
    sort[TABLE_NO_COVER] = cover == -100000 * SECOND_UNMET;
}

/* ---- lines that are refused ---- */

struct piece {
    const uint8_t *at;
    size_t length;
    bool ended; /* a line that has its LF */
};

/* The line of this number, from 1; of no length if there is none. */
static struct piece line_of(const uint8_t *listing, size_t length, unsigned number)
{
    size_t at = 0;
    for (; number > 1 && at < length; at++)
        number -= listing[at] == '\n';
    struct piece line = {listing + at, 0, false};
    while (at + line.length < length && line.at[line.length] != '\n')
        line.length++;
    line.ended = at + line.length < length;
    return line;
}

static bool has_mark(struct piece line, const char *mark)
{
    return line.length >= 2 && memcmp(line.at, mark, 2) == 0 && (line.length == 2 || line.at[2] == ' ');
}

static unsigned field_number(struct piece line)
{
    unsigned fields = 1;
    for (size_t at = 0; at < line.length; at++)
        fields += line.at[at] == ' ';
    return fields;
}

/* Whether the line would be good in a listing of its own with this head line, and, but for an `EN`, with nothing else before it:
   a line of a flow table is then the first one. A listing that ends in the line lacks its `EN` only where the line is good. */
static bool is_good(struct piece line, const struct second_machine *machine)
{
    static struct second_machine other;
    static uint8_t text[SECOND_BYTES];
    const unsigned numbers[] = {machine->states, machine->inputs, machine->outputs};
    size_t length = 3;
    memcpy(text, "MC ", 3);
    for (unsigned at = 0; at < LENGTH_OF(numbers); at++) {
        if (numbers[at] >= 10)
            text[length++] = (uint8_t)('0' + numbers[at] / 10);
        text[length++] = (uint8_t)('0' + numbers[at] % 10);
        text[length++] = ' ';
    }
    memcpy(text + length, "0\n", 2);
    length += 2;
    if (!line.ended || length + line.length + 1 > sizeof text)
        return false;
    memcpy(text + length, line.at, line.length + 1);
    struct second_refusal refusal = second_read_lines(text, length + line.length + 1, &other);
    return refusal.number == SECOND_FINE || refusal.line == 3;
}

/* Of a line that is refused 3: good, spoilt or without LF, by the first of three sorts. */
static enum sort sort_state(struct piece line, const struct second_machine *machine, enum sort good)
{
    if (!line.ended)
        return (enum sort)(good + 2);
    bool like_first = !has_mark(line, "FT") || machine->flow_lines == 0 || field_number(line) == machine->columns + 1;
    return is_good(line, machine) && like_first ? good : (enum sort)(good + 1);
}

/* Of a line that is refused 3 where a flow table or its lines are beside it; SORTS if it is none of these. */
static enum sort sort_place(struct piece line, unsigned at, const struct second_machine *machine)
{
    bool flow = has_mark(line, "FT");
    if (flow && at == 1)
        return FIRST_LINE;
    if (flow && machine->moore)
        return sort_state(line, machine, UNDER_MO_GOOD);
    if (flow && machine->flow_lines > 0)
        return sort_state(line, machine, TOO_MANY_GOOD);
    if (flow)
        return sort_state(line, machine, machine->rows > 0 ? BEHIND_ROW_GOOD : BEHIND_DI_GOOD);
    if (at == 1 || machine->flow_lines == 0)
        return SORTS;
    if (has_mark(line, "PT"))
        return sort_state(line, machine, ROW_BEHIND_GOOD);
    if (has_mark(line, "DI"))
        return sort_state(line, machine, DI_BEHIND_GOOD);
    return has_mark(line, "EN") ? sort_state(line, machine, TOO_FEW_GOOD) : SORTS;
}

/* Of an `FT` line of as many columns as it must have, by its first field that is not good. */
static enum sort sort_field(struct piece line, const struct second_machine *machine)
{
    for (size_t at = 3; at < line.length;) {
        size_t end = at;
        unsigned number = 0;
        bool digits = true;
        for (; end < line.length && line.at[end] != ' '; end++) {
            digits = digits && line.at[end] >= '0' && line.at[end] <= '9' && end - at < 4;
            number = digits ? number * 10 + (unsigned)(line.at[end] - '0') : 0;
        }
        bool needless = end - at > 1 && line.at[at] == '0';
        if (digits && !needless && end > at && number >= machine->states)
            return number == machine->states ? BAD_STATE_N : BAD_STATE_ABOVE;
        if (end == at || needless || (!digits && !(end - at == 1 && line.at[at] == '-')))
            return BAD_FIELD;
        at = end + 1;
    }
    return BAD_FIELD;
}

/* Of an `FT` line that is refused 1. */
static enum sort sort_bad(struct piece line, const struct second_machine *machine)
{
    unsigned columns = field_number(line) - 1;
    if (!line.ended)
        return BAD_UNENDED;
    if (machine->flow_lines == 0 && columns == 0)
        return BAD_NO_COLUMNS;
    if (machine->flow_lines == 0 && columns > 16)
        return BAD_17_COLUMNS;
    if (machine->flow_lines > 0 && columns != machine->columns)
        return columns < machine->columns ? BAD_FEWER_COLUMNS : BAD_MORE_COLUMNS;
    return sort_field(line, machine);
}

/* Of a line that is refused, and whether the lines before it alone would be refused 13 if they were all. */
static void sort_line(struct piece line, struct second_refusal refusal, const struct second_machine *machine, bool sort[SORTS])
{
    enum sort one = SORTS;
    if (refusal.number == SECOND_PLACE)
        one = sort_place(line, refusal.line, machine);
    if (refusal.number == SECOND_BAD_LINE && refusal.line > 1 && has_mark(line, "FT"))
        one = sort_bad(line, machine);
    if (one == SORTS)
        return;
    bool before_13 = refusal.line > 1 && has_unstable(machine);
    sort[one] = true;
    sort[BAD_BEFORE_13] = before_13 && refusal.number == SECOND_BAD_LINE;
    sort[TOO_MANY_BEFORE_13] = before_13 && one >= TOO_MANY_GOOD && one <= TOO_MANY_UNENDED;
    sort[TOO_FEW_BEFORE_13] = before_13 && one >= TOO_FEW_GOOD && one <= TOO_FEW_UNENDED;
}

/* ---- refusals after all lines ---- */

/* The line that a scan by columns would come to first. */
static unsigned line_by_columns(const struct second_machine *machine)
{
    for (unsigned column = 0; column < machine->columns; column++)
        for (unsigned state = 0; state < machine->states; state++)
            if (is_unstable(machine, state, column))
                return state + 2;
    return 0;
}

static void sort_unstable(unsigned line, const struct second_machine *machine, bool sort[SORTS])
{
    unsigned state = line - 2;
    unsigned lines = 0;
    sort[UNSTABLE] = true;
    for (unsigned column = 0; column < machine->columns; column++) {
        if (!is_unstable(machine, state, column))
            continue;
        unsigned next = (unsigned)machine->flow[state][column];
        sort[UNSTABLE_DASH] |= machine->flow[next][column] == SECOND_NO_STATE;
        sort[UNSTABLE_ELSEWHERE] |= machine->flow[next][column] != SECOND_NO_STATE;
        sort[UNSTABLE_EARLIER] |= next < state;
        sort[UNSTABLE_LATER] |= next > state;
    }
    for (unsigned other = 0; other < machine->states; other++) {
        bool goes = false;
        for (unsigned column = 0; column < machine->columns; column++)
            goes = goes || is_unstable(machine, other, column);
        lines += goes;
    }
    sort[UNSTABLE_COLUMNS] = line_by_columns(machine) != line;
    sort[UNSTABLE_SEVERAL] = lines > 1;
    sort[UNSTABLE_BEFORE_2] = asked_in(machine) > 64;
}

static void sort_refusal(const uint8_t *listing, size_t length, struct second_refusal refusal,
                         const struct second_machine *machine, bool sort[SORTS])
{
    struct piece before = line_of(listing, length, refusal.line - 1);
    bool all_read = refusal.line > 2 && machine->flow_lines > 0 && machine->flow_lines == machine->states;
    bool after_end = refusal.number == SECOND_PLACE && refusal.line > 2 && has_mark(before, "EN") && before.length == 2;
    if (refusal.number == SECOND_UNSTABLE)
        sort_unstable(refusal.line, machine, sort);
    if (after_end) {
        sort[AFTER_END_BEFORE_13] = all_read && has_unstable(machine);
        sort[AFTER_END_BEFORE_2] = all_read && !has_unstable(machine) && asked_in(machine) > 64;
    } else if (refusal.number == SECOND_BAD_LINE || refusal.number == SECOND_PLACE) {
        sort_line(line_of(listing, length, refusal.line), refusal, machine, sort);
    }
}

void seen_flow(const uint8_t *listing, size_t length, int64_t report, int64_t cover)
{
    static struct second_machine machine;
    bool sort[SORTS] = {false};
    struct second_refusal refusal = second_read_lines(listing, length, &machine);
    if (report >= 0 && machine.flow_lines > 0)
        sort_table(&machine, cover, sort);
    if (refusal.number != SECOND_FINE && refusal.line > 0)
        sort_refusal(listing, length, refusal, &machine, sort);
    if (refusal.number == SECOND_LIMIT && refusal.line == 0 && length <= SECOND_BYTES) {
        sort[LIMIT_65] = asked_in(&machine) == 65;
        sort[LIMIT_MORE] = asked_in(&machine) > 65;
    }
    for (unsigned at = 0; at < SORTS; at++)
        sorts[at].seen += sort[at];
}

void seen_flow_print(void)
{
    seen_print_sorts("flow tables with", sorts, TABLE, BAD_NO_COLUMNS);
    seen_print_sorts("flow tables refused", sorts, BAD_NO_COLUMNS, SORTS);
}

bool seen_flow_each(void)
{
    return seen_enough(sorts, SORTS);
}
