/* The second encoder's search for the fewest bits (02, request 11): all codes of each width are tried, one after the other. */
#include "second.h"

#define COLUMNS (1u << (SECOND_LEAST_STATES - 1))

/* "columns, taken as numbers with state 1 highest", and state 0 at 0: the bit that has this number. */
static uint64_t column_of(unsigned number, unsigned states)
{
    uint64_t bit = 0;
    for (unsigned state = 1; state < states; state++)
        if (number >> (states - 1 - state) & 1)
            bit |= (uint64_t)1 << state;
    return bit;
}

/* What is looked up rather than judged again for every code: the columns there are, and which requirements each of them meets, requirement
   r as the bit 2^r; and the other way round, which columns meet a requirement. */
struct columns {
    unsigned digits; /* a column is a number of so many binary digits */
    unsigned number;
    uint64_t bit[COLUMNS];
    uint64_t meets[COLUMNS];
    uint64_t met_by[64];
    uint64_t all; /* the requirements that a code is to meet */
};

static void judge_columns(const struct second_requirements *requirements, unsigned states, struct columns *columns)
{
    memset(columns, 0, sizeof *columns);
    columns->digits = states - 1;
    columns->number = 1u << columns->digits;
    for (unsigned column = 0; column < columns->number; column++)
        columns->bit[column] = column_of(column, states);
    for (unsigned r = 0; r < requirements->number; r++) {
        columns->all |= (uint64_t)1 << r;
        for (unsigned column = 0; column < columns->number; column++) {
            if (second_bit_meets(requirements->list[r], columns->bit[column])) {
                columns->meets[column] |= (uint64_t)1 << r;
                columns->met_by[r] |= (uint64_t)1 << column;
            }
        }
    }
}

/* A code is a number too: its columns' digits one behind the other, the first column's highest, so that codes of one width come in the order
   of their numbers. The column of this place, from the right. */
static unsigned column_at(const struct columns *columns, uint64_t code, unsigned place)
{
    return (unsigned)(code >> place * columns->digits & (columns->number - 1));
}

static uint64_t left_by(const struct columns *columns, uint64_t code, unsigned width)
{
    uint64_t left = columns->all;
    for (unsigned place = 0; place < width; place++)
        left &= ~columns->meets[column_at(columns, code, place)];
    return left;
}

/* The first column that meets all that is left, or as many as there are. Those that do not meet the last requirement that is left are passed
   over: it is a dichotomy most often, which few do. */
static unsigned last_column(const struct columns *columns, uint64_t left)
{
    if (left == 0)
        return 0;
    for (uint64_t able = columns->met_by[63 - __builtin_clzll(left)]; able != 0; able &= able - 1) {
        unsigned column = (unsigned)__builtin_ctzll(able);
        if ((left & ~columns->meets[column]) == 0)
            return column;
    }
    return columns->number;
}

/* The first code of this width, one bit or more, that meets all: whatever the columns before the last, each in turn. */
static bool find_code(const struct columns *columns, unsigned width, uint64_t *code)
{
    uint64_t leads = (uint64_t)1 << (width - 1) * columns->digits;
    for (uint64_t lead = 0; lead < leads; lead++) {
        unsigned last = last_column(columns, left_by(columns, lead, width - 1));
        if (last < columns->number) {
            *code = lead << columns->digits | last;
            return true;
        }
    }
    return false;
}

/* "find a code of least width that meets them all, up to 5 bits"; no bits is a width where nothing is asked (reading 28). "The report's
   passes and looks are 0." False if there is none. */
static bool find_least(const struct second_requirements *requirements, unsigned states, struct second_code *code)
{
    struct columns columns;
    uint64_t number = 0;
    unsigned width = 0;
    judge_columns(requirements, states, &columns);
    bool found = requirements->number == 0;
    while (!found && width < SECOND_LEAST_BITS) {
        width++;
        found = find_code(&columns, width, &number);
    }
    code->bits = width;
    code->passes = 0;
    code->looks = 0;
    for (unsigned place = 0; place < width; place++)
        code->bit[place] = columns.bit[column_at(&columns, number, width - 1 - place)];
    return found;
}

static struct second_refusal refuse(unsigned number, unsigned line)
{
    struct second_refusal refusal = {number, line};
    return refusal;
}

/* "larger machines are 2 at line 1 for states": a fault of line 1 (reading 28), so that what else is wrong with that line, 3 or 1, comes
   before it, and any later line after it. A listing that is too long comes first of all. */
static struct second_refusal read_small(const uint8_t *listing, size_t length, struct second_machine *machine)
{
    if (length > SECOND_BYTES)
        return refuse(SECOND_LIMIT, 0);
    struct second_refusal refusal = second_read_head(listing, length, machine);
    if (refusal.number != SECOND_FINE)
        return refusal;
    if (machine->states > SECOND_LEAST_STATES)
        return refuse(SECOND_LIMIT, 1);
    return second_read_lines(listing, length, machine);
}

/* "... and at line 0 for requirements", after 6 (reading 28); "16 when no code of 5 bits meets everything, and only then". */
struct second_refusal second_least_code(const uint8_t *listing, size_t length, struct second_machine *machine,
                                        struct second_requirements *requirements, struct second_code *code)
{
    struct second_refusal refusal = read_small(listing, length, machine);
    if (refusal.number != SECOND_FINE)
        return refusal;
    refusal = second_find_conflict(machine);
    if (refusal.number != SECOND_FINE)
        return refusal;
    second_draw_up(machine, requirements);
    if (requirements->number > SECOND_LEAST_REQUIREMENTS)
        return refuse(SECOND_LIMIT, 0);
    return find_least(requirements, machine->states, code) ? refusal : refuse(SECOND_NO_CODE, 0);
}

int64_t second_least(const uint8_t *listing, size_t listing_length, uint8_t *out, size_t out_length)
{
    return second_report_by(second_least_code, listing, listing_length, out, out_length);
}

/* Never refused 9: the code meets everything. */
int64_t second_least_cover(const uint8_t *listing, size_t listing_length, uint8_t *out, size_t out_length)
{
    return second_cover_by(second_least_code, listing, listing_length, out, out_length);
}
