/* Flow tables by the words of the listing and of the report: destinations and their sets are found in the text, column by column,
   and told apart, or not, by the codes that the `SC` lines print. */
#include "self_flow.h"
#include "known.h"
#include "second.h"

/* The table as the text has it: for each state and column, the number, or a dash. */
#define DASH (-1)

struct table {
    unsigned states;
    unsigned columns;
    int next[SECOND_STATES][SECOND_COLUMNS];
    const uint8_t *head; /* the head line, its LF too */
    size_t head_length;
};

static unsigned take_digits(const uint8_t **at)
{
    unsigned number = 0;
    for (; **at >= '0' && **at <= '9'; (*at)++)
        number = number * 10 + (unsigned)(**at - '0');
    return number;
}

/* The text is one that is read, so that each line is good. */
static void take_table(const uint8_t *listing, struct table *table)
{
    const uint8_t *at = listing;
    while (*at != '\n')
        at++;
    at++;
    table->head = listing;
    table->head_length = (size_t)(at - listing);
    for (table->states = 0; *at == 'F'; table->states++, at++) {
        at += 2;
        for (table->columns = 0; *at == ' '; table->columns++) {
            bool dash = at[1] == '-';
            at += dash ? 2 : 1;
            table->next[table->states][table->columns] = dash ? DASH : (int)take_digits(&at);
        }
    }
}

/* "each destination forms a set with all states that go to it" */
static bool is_in_set(const struct table *table, unsigned column, unsigned destination, unsigned state)
{
    return state == destination || table->next[state][column] == (int)destination;
}

static bool is_destination(const struct table *table, unsigned column, unsigned state)
{
    for (unsigned from = 0; from < table->states; from++)
        if (table->next[from][column] == (int)state)
            return true;
    return false;
}

static unsigned lowest_member(const struct table *table, unsigned column, unsigned destination)
{
    unsigned state = 0;
    while (!is_in_set(table, column, destination, state))
        state++;
    return state;
}

/* The destinations of a column, "sets by lowest member". */
static unsigned take_destinations(const struct table *table, unsigned column, unsigned list[SECOND_STATES])
{
    unsigned number = 0;
    for (unsigned lowest = 0; lowest < table->states; lowest++)
        for (unsigned state = 0; state < table->states; state++)
            if (is_destination(table, column, state) && lowest_member(table, column, state) == lowest)
                list[number++] = state;
    return number;
}

/* Two destinations of a column: a dichotomy. */
struct two {
    unsigned column;
    unsigned first;
    unsigned second;
};

/* "Columns go left to right"; each two sets, by the first and then by the second. */
static unsigned take_twos(const struct table *table, struct two two[SECOND_DICHOTOMIES])
{
    unsigned list[SECOND_STATES];
    unsigned twos = 0;
    for (unsigned column = 0; column < table->columns; column++) {
        unsigned number = take_destinations(table, column, list);
        for (unsigned first = 0; first < number; first++)
            for (unsigned second = first + 1; second < number && twos < SECOND_DICHOTOMIES; second++)
                two[twos++] = (struct two){column, list[first], list[second]};
    }
    return twos;
}

/* ---- the same listing with `DI` lines ---- */

static size_t write_ordinary(const struct table *table, const struct two *two, unsigned twos, uint8_t *text)
{
    uint8_t *to = text + table->head_length;
    memcpy(text, table->head, table->head_length);
    for (unsigned at = 0; at < twos; at++) {
        memcpy(to, "DI ", 3);
        to += 3;
        for (unsigned state = 0; state < table->states; state++) {
            bool first = is_in_set(table, two[at].column, two[at].first, state);
            bool second = is_in_set(table, two[at].column, two[at].second, state);
            *to++ = first ? '+' : second ? '-' : '.';
        }
        *to++ = '\n';
    }
    memcpy(to, "EN\n", 3);
    return (size_t)(to + 3 - text);
}

static bool answers_alike(entry *run, const uint8_t *listing, size_t length, const uint8_t *other, size_t other_length)
{
    static uint8_t one[SECOND_TEXT], another[SECOND_TEXT];
    int64_t answer = run(listing, length, one, sizeof one);
    int64_t wanted = run(other, other_length, another, sizeof another);
    return answer == wanted && (answer < 0 || memcmp(one, another, (size_t)answer) == 0);
}

/* ---- what the report says ---- */

/* The codes of the `SC` lines, and for each requirement the bit of its `BY` line, or NONE for an `UN` line. */
#define NONE (-1)

struct report {
    unsigned bits;
    unsigned asked;
    const uint8_t *code[SECOND_STATES];
    int by[SECOND_REQUIREMENTS];
};

static unsigned take_field(const uint8_t **at)
{
    (*at)++;
    return take_digits(at);
}

static void take_line(const uint8_t *at, struct report *report)
{
    const uint8_t mark = *at;
    at += 2;
    if (mark == 'C') {
        report->bits = take_field(&at);
        report->asked = take_field(&at);
    }
    if (mark == 'S') {
        unsigned state = take_field(&at);
        report->code[state] = at + 1;
    }
    if (mark == 'B' || mark == 'U') {
        unsigned number = take_field(&at);
        report->by[number] = mark == 'B' ? (int)take_field(&at) : NONE;
    }
}

static void take_report(const uint8_t *text, size_t length, struct report *report)
{
    for (size_t at = 0; at < length; at++)
        if (at == 0 || text[at - 1] == '\n')
            take_line(text + at, report);
}

/* Whether this bit has one value on the whole set of the one destination and the other on the whole set of the other. */
static bool tells_apart(const struct table *table, const struct two *two, const struct report *report, unsigned place)
{
    uint8_t value = report->code[two->first][place];
    bool apart = true;
    for (unsigned state = 0; state < table->states; state++) {
        if (is_in_set(table, two->column, two->first, state))
            apart = apart && report->code[state][place] == value;
        if (is_in_set(table, two->column, two->second, state))
            apart = apart && report->code[state][place] != value;
    }
    return apart;
}

/* The lowest bit that does, leftmost first, or NONE. */
static int told_by(const struct table *table, const struct two *two, const struct report *report)
{
    for (unsigned place = 0; place < report->bits; place++)
        if (tells_apart(table, two, report, place))
            return (int)place;
    return NONE;
}

/* Each two destinations have their `BY` or `UN` line, behind those of the pairs, and it says what the codes do. */
static bool races_are_right(const struct table *table, const struct two *two, unsigned twos, const struct report *report,
                            unsigned *races)
{
    unsigned pairs = table->states * (table->states - 1) / 2;
    bool right = report->asked == pairs + twos;
    *races = 0;
    for (unsigned at = 0; right && at < twos; at++) {
        int bit = told_by(table, &two[at], report);
        right = report->by[pairs + at] == bit;
        *races += bit == NONE;
    }
    return right;
}

bool self_flow(const uint8_t *listing, size_t length, struct self_flow_counts *counts)
{
    static struct table table;
    static struct two two[SECOND_DICHOTOMIES];
    static struct report report;
    static uint8_t ordinary[SECOND_BYTES], text[SECOND_TEXT];
    unsigned races = 0;
    take_table(listing, &table);
    unsigned twos = take_twos(&table, two);
    size_t ordinary_length = write_ordinary(&table, two, twos, ordinary);
    bool right = answers_alike(second_report, listing, length, ordinary, ordinary_length) &&
                 answers_alike(second_cover, listing, length, ordinary, ordinary_length);
    if (table.states <= 10) /* a code for each width is dear above that */
        right = right && answers_alike(second_widths, listing, length, ordinary, ordinary_length);
    int64_t answer = second_report(listing, length, text, sizeof text);
    if (answer < 0)
        return right;
    take_report(text, (size_t)answer, &report);
    right = right && races_are_right(&table, two, twos, &report, &races);
    counts->tables++;
    counts->all_met += twos > 0 && races == 0;
    counts->races += races > 0;
    return right;
}
