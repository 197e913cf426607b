/* Small machines by chance, for the fewest bits. */
#include "generate_least.h"

/* The limits of 01 and of 02's request 11, written down again here so that the generator depends on no encoder. */
#define SMALL_STATES 6
#define SMALL_REQUIREMENTS 32
#define SMALL_BYTES 65536

#define STATES 64
#define INPUTS 5 /* as many as tell 32 rows apart */
#define ROWS 32
#define DICHOTOMIES 40
#define COLUMNS 16
#define DASH (-1)

/* Each family's name and how often it is drawn, out of 100. */
static const struct {
    const char *name;
    unsigned weight;
} families[LEAST_KINDS] = {
    [LEAST_ROWS] = {"rows", 18},
    [LEAST_DICHOTOMIES] = {"dichotomies", 14},
    [LEAST_FULL] = {"full dichotomies", 12},
    [LEAST_HIDDEN] = {"hidden code", 13},
    [LEAST_EDGE] = {"edge", 14},
    [LEAST_BUT_ONE] = {"all but one", 4},
    [LEAST_FLOW] = {"flow", 12},
    [LEAST_FLOW_FULL] = {"flow full", 5},
    [LEAST_FLOW_CROWD] = {"flow crowd", 3},
    [LEAST_LARGE] = {"large", 5},
    [LEAST_DAMAGED] = {"damaged", 0},
};

/* A set of states is a mask: state j is the bit 2^j. */
struct draft {
    unsigned states;
    bool moore;
    unsigned rows;
    uint64_t group[ROWS];
    unsigned dichotomies;
    uint64_t first[DICHOTOMIES];
    uint64_t second[DICHOTOMIES];
    unsigned clashes; /* of 24 rows, so many have a dash in the inputs, which may make two rows clash */
    bool bad_head;    /* the width is no number */
    bool untold;      /* a Moore machine's last state has no `OU` line */
    unsigned columns; /* of a flow table, which has neither rows nor dichotomies */
    unsigned dashes; /* of 16 entries that need not be destinations, so many are dashes */
    int next[STATES][COLUMNS];
};

const char *generate_least_name(unsigned kind)
{
    return families[kind].name;
}

static enum generate_least_family draw_family(struct chance *chance)
{
    unsigned at = chance_below(chance, 100);
    unsigned family = 0;
    while (at >= families[family].weight) {
        at -= families[family].weight;
        family++;
    }
    return (enum generate_least_family)family;
}

static uint64_t all_of(unsigned states)
{
    return ~(uint64_t)0 >> (64 - states);
}

/* ---- rows and dichotomies ---- */

static void add_row(struct draft *draft, uint64_t group)
{
    if (draft->rows == ROWS || group == 0)
        return;
    draft->group[draft->rows] = group;
    draft->rows++;
}

static void add_dichotomy(struct draft *draft, uint64_t first, uint64_t second)
{
    if (draft->dichotomies == DICHOTOMIES)
        return;
    draft->first[draft->dichotomies] = first;
    draft->second[draft->dichotomies] = second;
    draft->dichotomies++;
}

static void draw_rows(struct chance *chance, struct draft *draft, unsigned number)
{
    for (; number > 0; number--) {
        uint64_t group = chance_next(chance) & all_of(draft->states);
        if (draft->rows > 0 && chance_part(chance, 1, 6))
            group = draft->group[chance_below(chance, draft->rows)];
        add_row(draft, group);
    }
}

/* Of 6 states so many are in neither block. */
static void draw_dichotomy(struct chance *chance, struct draft *draft, unsigned neither)
{
    uint64_t first = 0;
    uint64_t second = 0;
    for (unsigned state = 0; state < draft->states; state++) {
        if (chance_part(chance, neither, 6))
            continue;
        if (chance_part(chance, 1, 2))
            first |= (uint64_t)1 << state;
        else
            second |= (uint64_t)1 << state;
    }
    add_dichotomy(draft, first, second);
}

/* Dichotomies that the columns of one code meet, some of the states left out, either way round. */
static void draw_hidden(struct chance *chance, struct draft *draft, unsigned width, unsigned number)
{
    uint64_t column[SMALL_STATES];
    for (unsigned place = 0; place < width; place++)
        column[place] = chance_next(chance);
    for (; number > 0; number--) {
        uint64_t values = column[chance_below(chance, width)];
        uint64_t members = (chance_next(chance) | chance_next(chance)) & all_of(draft->states);
        if (chance_part(chance, 1, 2))
            values = ~values;
        add_dichotomy(draft, members & values, members & ~values);
    }
}

/* Rows that hold in all states but one: each asks for a column of its own. */
static void draw_but_one(struct chance *chance, struct draft *draft)
{
    unsigned left_out = chance_below(chance, draft->states);
    for (unsigned number = chance_from(chance, draft->states > 1 ? draft->states - 1 : 1, draft->states); number > 0; number--) {
        add_row(draft, all_of(draft->states) & ~((uint64_t)1 << left_out % draft->states));
        left_out++;
    }
}

static unsigned size_of(uint64_t set)
{
    return (unsigned)__builtin_popcountll(set);
}

/* How many requirements the draft has. */
static unsigned count_asked(const struct draft *draft)
{
    unsigned asked = draft->states * (draft->states - 1) / 2 + draft->dichotomies;
    for (unsigned row = 0; row < draft->rows; row++) {
        bool earlier = false;
        for (unsigned other = 0; other < row; other++)
            earlier = earlier || draft->group[other] == draft->group[row];
        if (!earlier && size_of(draft->group[row]) >= 2)
            asked += draft->states - size_of(draft->group[row]);
    }
    return asked;
}

/* As many requirements as there may be, one more, or about so many. */
static void draw_edge(struct chance *chance, struct draft *draft)
{
    static const unsigned wanted[] = {SMALL_REQUIREMENTS, SMALL_REQUIREMENTS, SMALL_REQUIREMENTS, SMALL_REQUIREMENTS + 1,
                                      SMALL_REQUIREMENTS + 1, SMALL_REQUIREMENTS - 1, SMALL_REQUIREMENTS + 4};
    unsigned most = wanted[chance_below(chance, LENGTH_OF(wanted))];
    unsigned width = chance_from(chance, 1, 3);
    draw_rows(chance, draft, chance_below(chance, 4));
    unsigned asked = count_asked(draft);
    if (asked < most)
        draw_hidden(chance, draft, width, most - asked);
}

/* ---- flow tables ---- */

/* A column of so many destinations, which are any states; the others go to one of them, or have a dash. */
static void draw_column(struct chance *chance, struct draft *draft, unsigned column, unsigned sets)
{
    unsigned order[STATES];
    for (unsigned state = 0; state < draft->states; state++)
        order[state] = state;
    for (unsigned at = 0; at < draft->states; at++) {
        unsigned other = at + chance_below(chance, draft->states - at);
        unsigned state = order[other];
        order[other] = order[at];
        order[at] = state;
        bool dash = at >= sets && chance_part(chance, draft->dashes, 16);
        draft->next[state][column] = dash ? DASH : (int)order[at < sets ? at : chance_below(chance, sets)];
    }
}

static void draw_flow(struct chance *chance, struct draft *draft, unsigned columns, unsigned most)
{
    unsigned sets = draft->states < most ? draft->states : most;
    draft->columns = columns;
    for (unsigned column = 0; column < columns; column++)
        draw_column(chance, draft, column, chance_from(chance, sets > 1 ? 2 : 1, sets));
}

/* ---- the text ---- */

static void put_inputs(struct chance *chance, struct generated *listing, unsigned row, unsigned clashes)
{
    bool dash = chance_part(chance, clashes, 24);
    unsigned at = chance_below(chance, INPUTS);
    for (unsigned place = 0; place < INPUTS; place++)
        generate_put_text(listing, dash && place == at ? "-" : row >> place & 1 ? "1" : "0");
}

static void put_outputs(struct chance *chance, struct generated *listing)
{
    static const char *const output[] = {"0", "0", "1", "-"};
    for (unsigned place = 0; place < listing->outputs; place++)
        generate_put_text(listing, output[chance_below(chance, LENGTH_OF(output))]);
}

static void put_row(struct chance *chance, const struct draft *draft, unsigned row, struct generated *listing)
{
    unsigned next = chance_below(chance, draft->states + 1);
    generate_put_text(listing, "PT ");
    put_inputs(chance, listing, row, draft->clashes);
    generate_put_text(listing, " ");
    for (unsigned state = 0; state < draft->states; state++)
        generate_put_text(listing, draft->group[row] >> state & 1 ? "1" : "0");
    generate_put_text(listing, " ");
    for (unsigned state = 0; state < draft->states; state++)
        generate_put_text(listing, state == next ? "1" : "0");
    if (!draft->moore) {
        generate_put_text(listing, " ");
        put_outputs(chance, listing);
    }
    generate_put_text(listing, "\n");
}

static void put_dichotomy(const struct draft *draft, unsigned at, struct generated *listing)
{
    generate_put_text(listing, "DI ");
    for (unsigned state = 0; state < draft->states; state++) {
        bool first = draft->first[at] >> state & 1;
        generate_put_text(listing, first ? "+" : draft->second[at] >> state & 1 ? "-" : ".");
    }
    generate_put_text(listing, "\n");
}

static void put_flow(const struct draft *draft, struct generated *listing)
{
    for (unsigned state = 0; draft->columns > 0 && state < draft->states; state++) {
        generate_put_text(listing, "FT");
        for (unsigned column = 0; column < draft->columns; column++) {
            generate_put_text(listing, " ");
            if (draft->next[state][column] == DASH)
                generate_put_text(listing, "-");
            else
                generate_put_number(listing, (unsigned)draft->next[state][column]);
        }
        generate_put_text(listing, "\n");
    }
}

static void put_states(struct chance *chance, const struct draft *draft, struct generated *listing)
{
    for (unsigned state = 0; draft->moore && state + draft->untold < draft->states; state++) {
        generate_put_text(listing, "OU ");
        generate_put_number(listing, state);
        generate_put_text(listing, " ");
        put_outputs(chance, listing);
        generate_put_text(listing, "\n");
    }
}

/* The width is any, for it is not used, and so is the fifth number. */
static void put_head(struct chance *chance, const struct draft *draft, struct generated *listing)
{
    static const char *const width[] = {" 0", " 0", " 0", " 1", " 2", " 3", " 5", " 6", " 64"};
    static const char *const fifth[] = {"\n", "\n", " 0\n", " 1\n"};
    generate_put_text(listing, draft->moore ? "MO " : "MC ");
    generate_put_number(listing, draft->states);
    generate_put_text(listing, " ");
    generate_put_number(listing, listing->inputs);
    generate_put_text(listing, " ");
    generate_put_number(listing, listing->outputs);
    generate_put_text(listing, draft->bad_head ? " x" : width[chance_below(chance, LENGTH_OF(width))]);
    generate_put_text(listing, fifth[chance_below(chance, LENGTH_OF(fifth))]);
}

/* Rows and dichotomies among each other, the `OU` lines before or behind them. */
static void put_listing(struct chance *chance, const struct draft *draft, struct generated *listing)
{
    unsigned row = 0;
    unsigned dichotomy = 0;
    bool states_first = chance_part(chance, 1, 2);
    listing->length = 0;
    put_head(chance, draft, listing);
    if (states_first)
        put_states(chance, draft, listing);
    while (row < draft->rows || dichotomy < draft->dichotomies) {
        unsigned left = draft->rows - row + draft->dichotomies - dichotomy;
        if (chance_part(chance, draft->rows - row, left))
            put_row(chance, draft, row++, listing);
        else
            put_dichotomy(draft, dichotomy++, listing);
    }
    put_flow(draft, listing);
    if (!states_first)
        put_states(chance, draft, listing);
    generate_put_text(listing, "EN\n");
}

/* ---- one of a family ---- */

static bool is_flow(enum generate_least_family family)
{
    return family == LEAST_FLOW || family == LEAST_FLOW_FULL || family == LEAST_FLOW_CROWD;
}

/* Six states take the search long where a code is wide, so that they are fewer among those. */
static unsigned draw_states(struct chance *chance, enum generate_least_family family)
{
    static const unsigned any[] = {1, 1, 2, 2, 3, 3, 3, 4, 4, 4, 4, 5, 5, 5, 5, 6, 6, 6, 6, 6};
    static const unsigned dear[] = {3, 4, 4, 4, 4, 4, 4, 4, 4, 5, 5, 5, 5, 5, 5, 5, 5, 5, 5, 5};
    bool wide = family == LEAST_FULL || family == LEAST_FLOW_FULL || family == LEAST_BUT_ONE;
    if (wide && chance_part(chance, 1, family == LEAST_BUT_ONE ? 10 : 60))
        return SMALL_STATES;
    if (family == LEAST_LARGE)
        return chance_part(chance, 2, 3) ? SMALL_STATES + 1 : chance_from(chance, SMALL_STATES + 1, STATES);
    return wide ? dear[chance_below(chance, LENGTH_OF(dear))] : any[chance_below(chance, LENGTH_OF(any))];
}

static void draw_draft(struct chance *chance, enum generate_least_family family, struct draft *draft)
{
    switch (family) {
    case LEAST_ROWS:
    case LEAST_LARGE:
        draw_rows(chance, draft, chance_below(chance, 8));
        break;
    case LEAST_DICHOTOMIES:
        draw_rows(chance, draft, chance_below(chance, 3));
        for (unsigned number = chance_below(chance, draft->states > 5 ? 6 : 10); number > 0; number--)
            draw_dichotomy(chance, draft, chance_from(chance, 2, 4));
        break;
    case LEAST_FULL:
        for (unsigned number = chance_from(chance, 4, draft->states == 4 ? 16 : 8); number > 0; number--)
            draw_dichotomy(chance, draft, 0);
        break;
    case LEAST_HIDDEN: {
        unsigned width = chance_from(chance, 1, draft->states > 5 ? 4 : 6);
        draw_hidden(chance, draft, width, chance_below(chance, 18));
        draw_rows(chance, draft, chance_below(chance, 2));
        break;
    }
    case LEAST_EDGE:
        draw_edge(chance, draft);
        break;
    case LEAST_BUT_ONE:
        draw_but_one(chance, draft);
        break;
    case LEAST_FLOW:
        draw_flow(chance, draft, chance_from(chance, 1, 5), 3);
        break;
    case LEAST_FLOW_FULL:
        draw_flow(chance, draft, chance_from(chance, 4, 12), 2);
        break;
    default:
        draw_flow(chance, draft, chance_from(chance, 6, COLUMNS), draft->states > 5 ? 4 : 6);
        break;
    }
}

void generate_least_good(struct chance *chance, enum generate_least_family family, struct generated *listing)
{
    static struct draft draft;
    draft.states = draw_states(chance, family);
    draft.moore = !is_flow(family) && chance_part(chance, 1, 4);
    draft.rows = 0;
    draft.dichotomies = 0;
    draft.clashes = family == LEAST_EDGE ? 12 : 2;
    draft.bad_head = family == LEAST_LARGE && chance_part(chance, 1, 10);
    draft.untold = chance_part(chance, 1, family == LEAST_EDGE ? 8 : 40);
    draft.columns = 0;
    draft.dashes = family == LEAST_FLOW_FULL ? 0 : 3;
    draw_draft(chance, family, &draft);
    listing->kind = family;
    listing->states = draft.states;
    listing->inputs = INPUTS;
    listing->outputs = chance_from(chance, 1, 3);
    listing->moore = draft.moore;
    listing->flow = draft.columns > 0;
    put_listing(chance, &draft, listing);
}

/* As many bytes as there may be, one fewer, or one or two more, whatever they say. */
static void fill_up(struct chance *chance, struct generated *listing)
{
    size_t wanted = chance_from(chance, SMALL_BYTES - 1, SMALL_BYTES + 2);
    memset(listing->bytes + listing->length, chance_part(chance, 1, 2) ? 'x' : '\n', wanted - listing->length);
    listing->length = wanted;
}

/* A good one; or one with one or two damages, which are those of larger machines too. */
void generate_least(uint64_t seed, uint64_t number, bool damaged, struct generated *listing)
{
    struct chance chance = chance_of(seed ^ 0x6C65617374, number);
    generate_least_good(&chance, draw_family(&chance), listing);
    if (!damaged)
        return;
    if (chance_part(&chance, 1, listing->states > SMALL_STATES ? 3 : 200))
        fill_up(&chance, listing);
    for (unsigned damages = chance_part(&chance, 1, 5) ? 2 : 1; damages > 0; damages--)
        generate_damage(&chance, generate_draw_damage(&chance), listing);
    listing->kind = LEAST_DAMAGED;
}
