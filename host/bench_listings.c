/* The benchmark's listings, drawn by chance from a seed: no two rows share an input vector, so none is refused. Those of its checks are drawn by
   rule. */
#include "bench_listings.h"
#include "chance.h"

#define INPUTS 8
#define OUTPUTS 4
#define WIDTH 64

const struct bench_plan bench_plans[] = {
    {BENCH_RANDOM, 4, 0, 0},     {BENCH_RANDOM, 4, 8, 0},     {BENCH_RANDOM, 4, 8, 8},     {BENCH_RANDOM, 4, 128, 64},
    {BENCH_RANDOM, 8, 0, 0},     {BENCH_RANDOM, 8, 8, 0},     {BENCH_RANDOM, 8, 32, 0},    {BENCH_RANDOM, 8, 32, 16},
    {BENCH_RANDOM, 8, 64, 0},    {BENCH_RANDOM, 8, 128, 0},
    {BENCH_RANDOM, 8, 128, 64},  {BENCH_RANDOM, 16, 0, 0},    {BENCH_RANDOM, 16, 8, 0},    {BENCH_RANDOM, 16, 32, 0},
    {BENCH_RANDOM, 16, 32, 16},  {BENCH_RANDOM, 16, 64, 0},   {BENCH_RANDOM, 16, 128, 0},  {BENCH_RANDOM, 16, 128, 64},
    {BENCH_RANDOM, 24, 0, 0},    {BENCH_RANDOM, 24, 8, 0},    {BENCH_RANDOM, 24, 32, 0},   {BENCH_RANDOM, 24, 64, 16},
    {BENCH_RANDOM, 24, 128, 0},  {BENCH_RANDOM, 32, 0, 0},    {BENCH_RANDOM, 32, 0, 64},   {BENCH_RANDOM, 32, 8, 0},
    {BENCH_RANDOM, 32, 32, 0},   {BENCH_RANDOM, 32, 64, 16},  {BENCH_RANDOM, 32, 128, 0},  {BENCH_RANDOM, 32, 128, 64},
    {BENCH_HALVES, 32, 128, 64}, {BENCH_PAIRS, 32, 128, 0},   {BENCH_PAIRS, 32, 128, 64},  {BENCH_RANDOM, 40, 0, 0},
    {BENCH_RANDOM, 40, 8, 0},    {BENCH_RANDOM, 40, 32, 0},   {BENCH_RANDOM, 40, 32, 64},  {BENCH_RANDOM, 40, 128, 0},
    {BENCH_RANDOM, 48, 0, 0},    {BENCH_RANDOM, 48, 8, 0},    {BENCH_RANDOM, 48, 32, 0},   {BENCH_RANDOM, 48, 128, 0},
    {BENCH_RANDOM, 48, 128, 64}, {BENCH_RANDOM, 64, 0, 0},    {BENCH_RANDOM, 64, 0, 64},   {BENCH_RANDOM, 64, 8, 0},
    {BENCH_RANDOM, 64, 32, 0},   {BENCH_RANDOM, 64, 128, 0},  {BENCH_RANDOM, 64, 128, 64}, {BENCH_HALVES, 64, 128, 64},
    {BENCH_PAIRS, 64, 128, 0},   {BENCH_PAIRS, 64, 128, 64},
};
const unsigned bench_plans_number = LENGTH_OF(bench_plans);

static void put(struct bench_listing *listing, char byte)
{
    listing->bytes[listing->length] = (uint8_t)byte;
    listing->length++;
}

static void put_text(struct bench_listing *listing, const char *text)
{
    for (; *text != 0; text++)
        put(listing, *text);
}

static void put_number(struct bench_listing *listing, unsigned number)
{
    if (number >= 10)
        put_number(listing, number / 10);
    put(listing, (char)('0' + number % 10));
}

static void put_set(struct bench_listing *listing, uint64_t set, unsigned places)
{
    for (unsigned place = 0; place < places; place++)
        put(listing, set >> place & 1 ? '1' : '0');
}

/* A group of this many states. */
static uint64_t draw_set(struct chance *chance, unsigned states, unsigned size)
{
    uint64_t set = 0;
    while ((unsigned)__builtin_popcountll(set) < size)
        set |= (uint64_t)1 << chance_below(chance, states);
    return set;
}

static uint64_t draw_group(struct chance *chance, const struct bench_plan *plan, unsigned row)
{
    unsigned n = plan->states;
    if (plan->groups == BENCH_PAIRS)
        return (uint64_t)1 << row % n | (uint64_t)1 << (row + 1 + row / n) % n;
    return draw_set(chance, n, plan->groups == BENCH_HALVES ? n / 2 : chance_from(chance, 2, n - 1));
}

/* The row's number in two-valued digits is its input, so that no other row has it. */
static void write_row(struct chance *chance, const struct bench_plan *plan, unsigned row, struct bench_listing *listing)
{
    put_text(listing, "PT ");
    put_set(listing, row, INPUTS);
    put(listing, ' ');
    put_set(listing, draw_group(chance, plan, row), plan->states);
    put(listing, ' ');
    put_set(listing, (uint64_t)1 << chance_below(chance, plan->states), plan->states);
    put(listing, ' ');
    for (unsigned place = 0; place < OUTPUTS; place++)
        put(listing, "01-"[chance_below(chance, 3)]);
    put(listing, '\n');
}

/* Half of the states, in two blocks. */
static void write_dichotomy(struct chance *chance, const struct bench_plan *plan, struct bench_listing *listing)
{
    put_text(listing, "DI ");
    for (unsigned state = 0; state < plan->states; state++)
        put(listing, "+-.."[chance_below(chance, 4)]);
    put(listing, '\n');
}

void bench_draw(uint64_t seed, unsigned at, struct bench_listing *listing)
{
    const struct bench_plan *plan = &bench_plans[at];
    const unsigned numbers[] = {plan->states, INPUTS, OUTPUTS, WIDTH};
    struct chance chance = chance_of(seed, at);
    listing->length = 0;
    put_text(listing, "MC");
    for (unsigned number = 0; number < LENGTH_OF(numbers); number++) {
        put(listing, ' ');
        put_number(listing, numbers[number]);
    }
    put(listing, '\n');
    for (unsigned row = 0; row < plan->rows; row++)
        write_row(&chance, plan, row, listing);
    for (unsigned dichotomy = 0; dichotomy < plan->dichotomies; dichotomy++)
        write_dichotomy(&chance, plan, listing);
    put_text(listing, "EN\n");
}

/* ---- checks ---- */

#define CHECK_STATES 64
#define CHECK_ROWS 128
#define CHECK_INPUTS 16
#define CHECK_OUTPUTS 32

/* The input of row k: a controller's row asks its state's input for 0 or 1. A hard one asks for one of the 32 pairs of an input and a value,
   each four times; or for such a pair of another input than the last, and for a value of the last one. */
static void put_input(enum bench_check_kind kind, unsigned row, struct bench_listing *text)
{
    bool two = kind == BENCH_TWO_INPUTS;
    unsigned asked = two ? row / 4 % (CHECK_INPUTS - 1) : row / 2 % CHECK_INPUTS;
    for (unsigned place = 0; place < CHECK_INPUTS; place++) {
        if (place == asked)
            put(text, (char)('0' + row % 2));
        else if (two && place == CHECK_INPUTS - 1)
            put(text, (char)('0' + row / 2 % 2));
        else
            put(text, '-');
    }
}

/* One output of 32: with one input a row each output is asked for by four of the pairs, and those of value 1 ask for the odd ones. */
static void put_outputs(unsigned row, struct bench_listing *text)
{
    put_set(text, (uint64_t)1 << (row % 32 + row / 32 * 8) % CHECK_OUTPUTS, CHECK_OUTPUTS);
}

/* A controller's rows come two to a state, and go to the next state or back to the first; the others hold in all states and go to the first. */
void bench_draw_check(enum bench_check_kind kind, struct bench_listing *listing)
{
    bool hard = kind != BENCH_CONTROLLER;
    listing->length = 0;
    put_text(listing, "MC 64 16 32 0\n");
    for (unsigned row = 0; row < CHECK_ROWS; row++) {
        unsigned state = row / 2;
        put_text(listing, "PT ");
        put_input(kind, row, listing);
        put(listing, ' ');
        put_set(listing, hard ? ~(uint64_t)0 : (uint64_t)1 << state, CHECK_STATES);
        put(listing, ' ');
        put_set(listing, (uint64_t)1 << (hard || row % 2 == 0 ? 0 : (state + 1) % CHECK_STATES), CHECK_STATES);
        put(listing, ' ');
        put_outputs(row, listing);
        put(listing, '\n');
    }
    put_text(listing, "EN\n");
}

void bench_draw_codes(struct bench_listing *codes)
{
    codes->length = 0;
    for (unsigned state = 0; state < CHECK_STATES; state++) {
        put_text(codes, "SC ");
        put_number(codes, state);
        put(codes, ' ');
        put_set(codes, (uint64_t)1 << state, CHECK_STATES);
        put(codes, '\n');
    }
}

static void put_same(char byte, unsigned places, struct bench_listing *text)
{
    for (unsigned place = 0; place < places; place++)
        put(text, byte);
}

/* At the last input no row of value 0 fires, so that output 0 is 0 there. */
static void put_wrong(struct bench_listing *cover)
{
    put_same('1', CHECK_INPUTS, cover);
    put_set(cover, (uint64_t)1 << (CHECK_STATES - 1), CHECK_STATES);
    put(cover, ' ');
    put_same('0', CHECK_STATES, cover);
    put_set(cover, 1, CHECK_OUTPUTS);
    put(cover, '\n');
}

void bench_draw_cover(enum bench_check_kind kind, bool wrong, struct bench_listing *cover)
{
    unsigned rows = 2 * CHECK_ROWS - (wrong ? 1 : 0);
    cover->length = 0;
    put_text(cover, ".i 80\n.o 96\n.type fd\n.p 256\n");
    for (unsigned row = 0; row < rows; row++) {
        if (row == 2 * CHECK_ROWS - 1)
            put_same('-', CHECK_INPUTS, cover);
        else
            put_input(kind, row % CHECK_ROWS, cover);
        put_same('-', CHECK_STATES, cover);
        put(cover, ' ');
        put_set(cover, row < CHECK_ROWS ? 0 : 1, CHECK_STATES);
        if (row < CHECK_ROWS)
            put_outputs(row, cover);
        else
            put_same('0', CHECK_OUTPUTS, cover);
        put(cover, '\n');
    }
    if (wrong)
        put_wrong(cover);
    put_text(cover, ".e\n");
}
