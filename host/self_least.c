/* The second encoder's fewest bits tested alone: the known answers, and, of small machines by chance, by another way of searching, that no code
   is shorter, none of that width comes first, and the report says what the code does. */
#include "generate_least.h"
#include "known_least.h"
#include "second.h"

static unsigned checks, failures;
static bool stop_at_once;

static void end_if_failed(void)
{
    if (failures > 0 && stop_at_once) {
        printf("self_least: stopped after %u checks\n", checks);
        exit(1);
    }
}

static void check(bool good, const char *what)
{
    checks++;
    if (!good) {
        failures++;
        printf("FAILED: %s\n", what);
    }
    end_if_failed();
}

/* ---- another way of searching ---- */

#define COLUMNS 32

/* The columns in no order that matters, as masks, and the requirements that each meets, as a set. */
static struct {
    unsigned states;
    unsigned columns;
    uint64_t all;
    uint64_t meets[COLUMNS];
    const struct second_requirements *requirements;
} task;

static bool has_value(uint64_t set, uint64_t bit, bool value)
{
    bool same = true;
    for (unsigned state = 0; state < task.states; state++)
        if (set >> state & 1)
            same = same && (bit >> state & 1) == value;
    return same;
}

/* "one value on the whole first block and the other on the whole second" */
static bool meets(struct second_requirement requirement, uint64_t bit)
{
    for (unsigned value = 0; value < 2; value++)
        if (has_value(requirement.first, bit, value) && has_value(requirement.second, bit, !value))
            return true;
    return false;
}

/* A column is here the mask shifted by one place, since state 0 has 0. */
static void set_task(const struct second_requirements *requirements, unsigned states)
{
    task.states = states;
    task.columns = 1u << (states - 1);
    task.requirements = requirements;
    task.all = 0;
    for (unsigned r = 0; r < requirements->number; r++)
        task.all |= (uint64_t)1 << r;
    for (unsigned column = 0; column < task.columns; column++) {
        task.meets[column] = 0;
        for (unsigned r = 0; r < requirements->number; r++)
            if (meets(requirements->list[r], (uint64_t)column << 1))
                task.meets[column] |= (uint64_t)1 << r;
    }
}

/* Whether so many bits more can meet what is left: some column must meet the lowest of it. */
static bool can_meet(uint64_t left, unsigned bits)
{
    if (left == 0)
        return true;
    uint64_t lowest = left & (~left + 1);
    for (unsigned column = 0; bits > 0 && column < task.columns; column++)
        if ((task.meets[column] & lowest) != 0 && can_meet(left & ~task.meets[column], bits - 1))
            return true;
    return false;
}

/* As numbers with state 1 the highest digit: the first state that differs decides. */
static bool comes_before(unsigned one, unsigned other)
{
    for (unsigned state = 1; state < task.states; state++)
        if ((one >> (state - 1) & 1) != (other >> (state - 1) & 1))
            return (one >> (state - 1) & 1) == 0;
    return false;
}

/* The first column with which so many bits more can meet what is left. */
static unsigned first_column(uint64_t left, unsigned bits)
{
    unsigned first = COLUMNS;
    for (unsigned column = 0; column < task.columns; column++)
        if (can_meet(left & ~task.meets[column], bits - 1) && (first == COLUMNS || comes_before(column, first)))
            first = column;
    return first;
}

/* The least width of all, and of its codes the first; false where five bits do not do. */
static bool search(unsigned *width, unsigned column[SECOND_LEAST_BITS])
{
    uint64_t left = task.all;
    *width = 0;
    while (*width <= SECOND_LEAST_BITS && !can_meet(task.all, *width))
        (*width)++;
    if (*width > SECOND_LEAST_BITS)
        return false;
    for (unsigned place = 0; place < *width; place++) {
        column[place] = first_column(left, *width - place);
        left &= ~task.meets[column[place]];
    }
    return left == 0;
}

/* ---- the report that is wanted ---- */

static char wanted[2000];
static size_t wanted_length;

static void put(const char *text)
{
    for (; *text != 0; text++)
        wanted[wanted_length++] = *text;
}

static void put_number(unsigned number)
{
    if (number >= 10)
        put_number(number / 10);
    wanted[wanted_length++] = (char)('0' + number % 10);
}

static void put_line(const char *mark, unsigned one, unsigned other)
{
    put(mark);
    put_number(one);
    put(" ");
    put_number(other);
}

static void want_report(unsigned width, const unsigned column[SECOND_LEAST_BITS])
{
    wanted_length = 0;
    put_line("CT ", width, task.requirements->number);
    put(" 0 0 0\n");
    for (unsigned state = 0; state < task.states; state++) {
        put("SC ");
        put_number(state);
        put(width == 0 ? " -" : " ");
        for (unsigned place = 0; place < width; place++)
            put(((uint64_t)column[place] << 1) >> state & 1 ? "1" : "0");
        put("\n");
    }
    for (unsigned r = 0; r < task.requirements->number; r++) {
        unsigned place = 0;
        while (!(task.meets[column[place]] >> r & 1))
            place++;
        put_line("BY ", r, place);
        put("\n");
    }
    put("EN\n");
}

/* ---- listings by chance ---- */

static struct generated made;
static uint8_t out[SECOND_TEXT];
static unsigned answered[SECOND_LEAST_BITS + 1], none, limits;

/* What both entries answer to a machine that is read and not too large. */
static bool least_is_right(const struct second_machine *machine)
{
    unsigned width;
    unsigned column[SECOND_LEAST_BITS];
    bool found = search(&width, column);
    int64_t cover = second_least_cover(made.bytes, made.length, out, sizeof out);
    int64_t report = second_least(made.bytes, made.length, out, sizeof out);
    if (!found) {
        none++;
        return report == -1600000 && cover == -1600000;
    }
    want_report(width, column);
    answered[width]++;
    bool room = second_least(made.bytes, made.length, out, (size_t)report - 1) == -1000000;
    return machine->states == task.states && cover > 0 && room && report == (int64_t)wanted_length && memcmp(out, wanted, wanted_length) == 0;
}

/* The refusals of the lines and 6 are those of the bit rule's report, but for large machines. */
static bool is_right(unsigned number)
{
    static struct second_machine machine;
    static struct second_requirements requirements;
    generate_least(9, number, number % 4 == 3, &made);
    int64_t report = second_report(made.bytes, made.length, out, sizeof out);
    int64_t least = second_least(made.bytes, made.length, out, sizeof out);
    struct second_refusal refusal = second_read_head(made.bytes, made.length, &machine);
    if (made.length <= SECOND_BYTES && refusal.number == SECOND_FINE && machine.states > SECOND_LEAST_STATES)
        return least == -200001;
    if (report < 0 && report != -700000)
        return least == report;
    second_read_lines(made.bytes, made.length, &machine);
    second_draw_up(&machine, &requirements);
    if (requirements.number > SECOND_LEAST_REQUIREMENTS) {
        limits++;
        return least == -200000;
    }
    set_task(&requirements, machine.states);
    return least_is_right(&machine);
}

static void test_by_chance(void)
{
    bool right = true;
    for (unsigned number = 0; number < 3000 && right; number++) {
        right = is_right(number);
        if (!right)
            printf("  listing %u:\n%.*s", number, (int)made.length, (const char *)made.bytes);
    }
    check(right, "the code is the first of the shortest, and the report says what it does");
    bool each = true;
    for (unsigned width = 0; width <= SECOND_LEAST_BITS; width++)
        each = each && answered[width] > 30;
    check(each && none > 60 && limits > 60, "enough of every width, of 16 and of 2");
}

/* ---- the longest texts ---- */

static uint8_t listing[SECOND_BYTES];
static size_t length;

static void add_line(const char *text, size_t text_length)
{
    memcpy(listing + length, text, text_length);
    length += text_length;
}

/* The dichotomies of this listing, of 6 states, in a machine of as many rows, inputs and outputs as there may be. */
static void make_longest(const char *text)
{
    static const char row[] = "PT ---------------- 100000 100000\n";
    static const char outputs[] = " 11111111111111111111111111111111\n";
    static const char *const state[] = {"OU 0", "OU 1", "OU 2", "OU 3", "OU 4", "OU 5"};
    size_t head = strlen("MC 6 1 1 0\n");
    length = 0;
    add_line("MO 6 16 32 0 1\n", 15);
    add_line(text + head, strlen(text) - head - 3);
    for (unsigned at = 0; at < SECOND_ROWS; at++)
        add_line(row, strlen(row));
    for (unsigned at = 0; at < LENGTH_OF(state); at++) {
        add_line(state[at], 4);
        add_line(outputs, strlen(outputs));
    }
    add_line("EN\n", 3);
}

/* Six states, 32 requirements, five bits. */
static void test_longest(void)
{
    const char *text = known_least_long[1].listing;
    check(second_least((const uint8_t *)text, strlen(text), out, sizeof out) == 329, "the longest report");
    make_longest(text);
    check(second_least_cover(listing, length, out, sizeof out) == 8071, "the longest cover");
}

int main(int words, char **word)
{
    const struct least_entries own = {"the second encoder", second_least, second_least_cover};
    stop_at_once = words == 2 && strcmp(word[1], "stop") == 0;
    failures += known_least_run(&own, &checks);
    end_if_failed();
    test_longest();
    test_by_chance();
    printf("self_least: %u checks, %u failed\n", checks, failures);
    return failures == 0 ? 0 : 1;
}
