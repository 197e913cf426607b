/* Good listings by chance: machines of every size, drawn row by row, that mostly avoid the conflict of refusal 6. */
#include "generate.h"

/* The limits of 01 and of 02's request 09, written down again here so that the generator depends on no encoder. */
#define STATES 64
#define WIDTH STATES
#define INPUTS 16
#define OUTPUTS 32
#define ROWS 128
#define DICHOTOMIES 64

#define NO_STATE (-1)

/* Each family's name and how often it is drawn, out of 1,000. Those that take an encoder long are seldom, so that a run stays
   fast; above 32 states, where most controllers are, is more than a quarter of all. */
static const struct {
    const char *name;
    unsigned weight;
} families[GENERATE_FAMILIES] = {
    [GENERATE_TINY] = {"tiny", 155},
    [GENERATE_SMALL] = {"small", 145},
    [GENERATE_MIDDLE] = {"middle", 65},
    [GENERATE_LARGE] = {"large", 25},
    [GENERATE_WIDE] = {"wide", 195},
    [GENERATE_HUGE] = {"huge", 2},
    [GENERATE_MANY_ROWS] = {"many rows", 45},
    [GENERATE_MANY_DICHOTOMIES] = {"many dichotomies", 38},
    [GENERATE_CROWD] = {"crowd", 20},
    [GENERATE_EDGE] = {"edge", 70},
    [GENERATE_CLASH] = {"clash", 50},
    [GENERATE_NARROW] = {"narrow", 40},
    [GENERATE_FLOW] = {"flow", 60},
    [GENERATE_FLOW_WIDE] = {"flow wide", 55},
    [GENERATE_FLOW_CROWD] = {"flow crowd", 35},
};

struct row {
    char input[INPUTS];
    uint64_t group;
    int next;
    char outputs[OUTPUTS];
};

/* Which groups the rows have. Different pairs of states ask for the most requirements; plain groups, of one state or of
   all, ask for none. */
enum groups { ANY_GROUPS, PAIR_GROUPS, PLAIN_GROUPS };

/* One more row and one more dichotomy than a listing may have. */
struct draft {
    enum groups groups;
    bool moore;
    unsigned states;
    unsigned inputs;
    unsigned outputs;
    unsigned width;
    const char *fifth;      /* the head line's fifth number and the space before it, or nothing */
    unsigned output_dashes; /* of 4 output characters, so many are dashes */
    unsigned quiet_rows;    /* of 4 rows, so many say nothing or next to nothing */
    unsigned rows;
    struct row row[ROWS + 1];
    unsigned dichotomies;
    char dichotomy[DICHOTOMIES + 1][STATES];
    unsigned told[STATES]; /* of a Moore machine, the states in the order of their lines, and their outputs */
    char state_outputs[STATES][OUTPUTS];
};

static enum generate_family draw_family(struct chance *chance)
{
    unsigned at = chance_below(chance, 1000);
    unsigned family = 0;
    while (at >= families[family].weight) {
        at -= families[family].weight;
        family++;
    }
    return (enum generate_family)family;
}

static unsigned one_of(struct chance *chance, const unsigned *list, unsigned number)
{
    return list[chance_below(chance, number)];
}

static uint64_t all_states(const struct draft *draft)
{
    return ~(uint64_t)0 >> (64 - draft->states);
}

static uint64_t any_state(struct chance *chance, const struct draft *draft)
{
    return (uint64_t)1 << chance_below(chance, draft->states);
}

static uint64_t any_set(struct chance *chance, const struct draft *draft)
{
    return chance_next(chance) & all_states(draft);
}

/* The numbers of the head line, and how many rows and dichotomies are to be drawn. */
static void draw_sizes(struct chance *chance, enum generate_family family, struct draft *draft)
{
    static const unsigned edge_states[] = {1, 2, 3, 31, 32, 33, STATES - 1, STATES, STATES};
    static const unsigned edge_inputs[] = {1, 2, 15, 16};
    static const unsigned edge_outputs[] = {1, 2, 31, 32};
    static const unsigned edge_widths[] = {0, 0, 1, 2, WIDTH - 1, WIDTH};
    draft->groups = ANY_GROUPS;
    draft->inputs = chance_from(chance, 1, 6);
    draft->outputs = chance_from(chance, 1, 4);
    if (chance_part(chance, 1, 12))
        draft->inputs = chance_from(chance, 1, INPUTS);
    if (chance_part(chance, 1, 12))
        draft->outputs = chance_from(chance, 1, OUTPUTS);
    draft->width = 0;
    if (chance_part(chance, 1, 4))
        draft->width = chance_from(chance, 1, 6);
    else if (chance_part(chance, 1, 6))
        draft->width = chance_from(chance, 1, WIDTH);

    switch (family) {
    case GENERATE_TINY:
        draft->states = chance_from(chance, 1, 3);
        draft->rows = chance_below(chance, 6);
        draft->dichotomies = chance_below(chance, 4);
        if (draft->states == 1 && chance_part(chance, 2, 3))
            draft->dichotomies = 0; /* no bits */
        break;
    case GENERATE_SMALL:
        draft->states = chance_from(chance, 2, 8);
        draft->rows = chance_below(chance, 13);
        draft->dichotomies = chance_below(chance, 5);
        break;
    case GENERATE_MIDDLE:
        draft->states = chance_from(chance, 6, 16);
        draft->rows = chance_below(chance, 13);
        draft->dichotomies = chance_below(chance, 6);
        break;
    case GENERATE_LARGE:
        draft->states = chance_from(chance, 17, 32);
        draft->rows = chance_below(chance, 13);
        draft->dichotomies = chance_below(chance, 6);
        if (chance_part(chance, 1, 2))
            draft->width = chance_from(chance, 1, 8);
        break;
    case GENERATE_WIDE:
        draft->states = chance_from(chance, 33, STATES);
        draft->rows = chance_below(chance, chance_part(chance, 1, 8) ? 13 : 4);
        draft->dichotomies = chance_below(chance, 4);
        if (chance_part(chance, 1, 2))
            draft->width = chance_from(chance, 1, 8);
        break;
    case GENERATE_HUGE:
        draft->states = chance_from(chance, STATES - 8, STATES);
        draft->rows = chance_from(chance, 60, ROWS);
        draft->dichotomies = chance_from(chance, 0, DICHOTOMIES);
        if (chance_part(chance, 9, 10))
            draft->width = chance_from(chance, 1, 3);
        if (chance_part(chance, 1, 4)) { /* 10,016 requirements, and the longest report */
            draft->groups = PAIR_GROUPS;
            draft->states = STATES;
            draft->rows = ROWS;
            draft->dichotomies = DICHOTOMIES;
            draft->width = chance_from(chance, 1, 2);
        }
        break;
    case GENERATE_MANY_ROWS:
        draft->states = chance_from(chance, 1, 5);
        draft->rows = chance_from(chance, ROWS - 2, ROWS + 1);
        draft->dichotomies = chance_below(chance, 3);
        if (chance_part(chance, 1, 6))
            draft->dichotomies = chance_from(chance, DICHOTOMIES - 1, DICHOTOMIES + 1);
        break;
    case GENERATE_MANY_DICHOTOMIES:
        draft->states = chance_from(chance, 1, 5);
        draft->rows = chance_below(chance, 3);
        draft->dichotomies = chance_from(chance, DICHOTOMIES - 2, DICHOTOMIES + 1);
        break;
    case GENERATE_CROWD:
        /* Every bit meets one of the dichotomies at most: up to about WIDTH of them are met, more are not. */
        draft->states = chance_from(chance, 7, 14);
        if (chance_part(chance, 1, 40))
            draft->states = chance_from(chance, 15, STATES);
        draft->rows = chance_below(chance, 2);
        draft->dichotomies = chance_from(chance, WIDTH - 6, DICHOTOMIES); /* about WIDTH, with the bits for the pairs */
        if (chance_part(chance, 1, 2))
            draft->dichotomies = DICHOTOMIES;
        draft->width = chance_part(chance, 1, 4) ? chance_from(chance, WIDTH - 2, WIDTH) : 0;
        if (chance_part(chance, 1, 8)) { /* the longest cover */
            draft->groups = PLAIN_GROUPS;
            draft->inputs = INPUTS;
            draft->outputs = OUTPUTS;
            draft->rows = ROWS;
            draft->width = WIDTH;
        }
        break;
    case GENERATE_EDGE:
        draft->states = one_of(chance, edge_states, 3);
        if (chance_part(chance, 1, 3))
            draft->states = one_of(chance, edge_states, LENGTH_OF(edge_states));
        draft->inputs = one_of(chance, edge_inputs, LENGTH_OF(edge_inputs));
        draft->outputs = one_of(chance, edge_outputs, LENGTH_OF(edge_outputs));
        draft->width = one_of(chance, edge_widths, LENGTH_OF(edge_widths));
        draft->rows = chance_below(chance, 4);
        draft->dichotomies = chance_below(chance, 3);
        break;
    case GENERATE_CLASH:
        draft->states = chance_part(chance, 1, 4) ? chance_from(chance, 9, STATES) : chance_from(chance, 2, 8);
        draft->rows = chance_from(chance, 2, 16);
        draft->dichotomies = chance_below(chance, 3);
        break;
    case GENERATE_NARROW:
        draft->states = chance_from(chance, 3, chance_part(chance, 1, 8) ? STATES : 14);
        draft->rows = chance_below(chance, 9);
        draft->dichotomies = chance_below(chance, 5);
        draft->width = chance_from(chance, 1, 4);
        break;
    case GENERATE_FLOW: /* these three are drawn in generate_flow.c */
    case GENERATE_FLOW_WIDE:
    case GENERATE_FLOW_CROWD:
        break;
    }
}

/* A group that is never empty: by chance, one state, a few, all, all but a few, or made from an earlier row's group. */
static uint64_t draw_group(struct chance *chance, const struct draft *draft, unsigned row)
{
    uint64_t all = all_states(draft);
    uint64_t earlier = row == 0 ? any_set(chance, draft) : draft->row[chance_below(chance, row)].group;
    uint64_t group = 0;
    if (draft->groups == PAIR_GROUPS) {
        unsigned state = row % draft->states;
        unsigned other = (row + 1 + row / draft->states) % draft->states;
        return (uint64_t)1 << state | (uint64_t)1 << other;
    }
    if (draft->groups == PLAIN_GROUPS)
        return chance_part(chance, 1, 8) ? all : any_state(chance, draft);
    switch (chance_below(chance, 12)) {
    case 0:
    case 1:
        group = any_set(chance, draft);
        break;
    case 2:
        group = any_state(chance, draft);
        break;
    case 3:
    case 4:
    case 5:
        for (unsigned more = chance_from(chance, 2, 4); more > 0; more--)
            group |= any_state(chance, draft);
        break;
    case 6:
        group = chance_part(chance, 1, 2) ? all : all & ~any_state(chance, draft);
        break;
    case 7:
        group = all;
        for (unsigned less = chance_from(chance, 1, 3); less > 0; less--)
            group &= ~any_state(chance, draft);
        break;
    case 8:
    case 9:
        group = earlier;
        break;
    case 10:
        group = earlier & any_set(chance, draft);
        break;
    case 11:
        group = chance_part(chance, 1, 2) ? earlier | any_state(chance, draft) : all & ~earlier;
        break;
    }
    if (group == 0)
        group = any_state(chance, draft);
    return group;
}

static bool clash(const struct draft *draft, const struct row *one, const struct row *other)
{
    if (one->next == NO_STATE || other->next == NO_STATE || one->next == other->next)
        return false;
    if ((one->group & other->group) == 0)
        return false;
    for (unsigned place = 0; place < draft->inputs; place++)
        if (one->input[place] != other->input[place] && one->input[place] != '-' && other->input[place] != '-')
            return false;
    return true;
}

/* Gives the row a next state that clashes with no earlier row's, if need be none. */
static void avoid_clash(const struct draft *draft, struct row *row, unsigned rows)
{
    for (unsigned tries = 0; tries < 3; tries++) {
        unsigned earlier = 0;
        while (earlier < rows && !clash(draft, &draft->row[earlier], row))
            earlier++;
        if (earlier == rows)
            return;
        row->next = tries < 2 ? draft->row[earlier].next : NO_STATE;
    }
}

/* A row that shares an input vector and a state with the one it is made from, or would but for a place of the input or but for
   the group, and says 1 for outputs where that one has a dash, or a dash where it has 1: what a dash is written as hangs on
   all of these. */
static void draw_beside(struct chance *chance, const struct draft *draft, const struct row *from, struct row *row)
{
    unsigned apart = chance_below(chance, 6);
    unsigned split = chance_below(chance, draft->inputs);
    for (unsigned place = 0; place < draft->inputs; place++)
        if (from->input[place] != '-')
            row->input[place] = chance_part(chance, 1, 4) ? '-' : from->input[place];
    if (apart == 0 && from->input[split] != '-')
        row->input[split] = from->input[split] == '0' ? '1' : '0';
    row->group = chance_part(chance, 1, 2) ? from->group : row->group | from->group;
    if (apart == 1 && from->group != all_states(draft))
        row->group = all_states(draft) & ~from->group;
    row->next = chance_part(chance, 1, 4) ? NO_STATE : from->next;
    for (unsigned place = 0; place < draft->outputs; place++) {
        if (from->outputs[place] == '-' && chance_part(chance, 1, 3))
            row->outputs[place] = '1';
        if (from->outputs[place] == '1' && chance_part(chance, draft->output_dashes, 4))
            row->outputs[place] = '-';
    }
}

/* A dash that has to be written 0: the row shares an input vector and a state with another one, which says 1 there. */
static void dash_beside_one(struct row *from, struct row *row, unsigned place)
{
    memcpy(row->input, from->input, sizeof row->input);
    row->group = from->group;
    row->outputs[place] = '-';
    from->outputs[place] = '1';
}

/* A row that a cover leaves out, or would but for one thing: a dash, a dash that is written 0, an output 1, a next state other
   than state 0, whose code is all zeros. */
static void draw_quiet(struct chance *chance, struct draft *draft, unsigned at)
{
    struct row *row = &draft->row[at];
    unsigned place = chance_below(chance, draft->outputs);
    memset(row->outputs, '0', sizeof row->outputs);
    row->next = chance_part(chance, 1, 2) ? NO_STATE : 0;
    switch (chance_below(chance, 9)) {
    case 0:
        row->outputs[place] = '-';
        break;
    case 1:
        if (at > 0)
            dash_beside_one(&draft->row[chance_below(chance, at)], row, place);
        break;
    case 2:
        row->outputs[place] = '1';
        break;
    case 3:
        if (draft->states > 1)
            row->next = (int)chance_from(chance, 1, draft->states - 1);
        break;
    default:
        break;
    }
}

static void draw_row(struct chance *chance, enum generate_family family, struct draft *draft, unsigned at)
{
    static const char three[] = "01-";
    struct row *row = &draft->row[at];
    unsigned dashes = chance_below(chance, 4);
    for (unsigned place = 0; place < draft->inputs; place++)
        row->input[place] = chance_part(chance, dashes, 6) ? '-' : three[chance_below(chance, 2)];
    row->group = draw_group(chance, draft, at);
    row->next = chance_part(chance, 1, 6) ? NO_STATE : (int)chance_below(chance, draft->states);
    for (unsigned place = 0; place < draft->outputs; place++)
        row->outputs[place] = chance_part(chance, draft->output_dashes, 4) ? '-' : three[chance_below(chance, 2)];
    if (draft->groups == ANY_GROUPS && at > 0 && chance_part(chance, 1, 5))
        draw_beside(chance, draft, &draft->row[chance_below(chance, at)], row);
    if (draft->groups == ANY_GROUPS && chance_part(chance, draft->quiet_rows, 4))
        draw_quiet(chance, draft, at);
    if (family == GENERATE_CLASH && at > 0 && chance_part(chance, 1, 4)) {
        /* Nearly an earlier row, with another next state or none. */
        struct row *earlier = &draft->row[chance_below(chance, at)];
        memcpy(row->input, earlier->input, sizeof row->input);
        if (chance_part(chance, 1, 2)) {
            unsigned place = chance_below(chance, draft->inputs);
            row->input[place] = three[chance_below(chance, 3)];
        }
        if (chance_part(chance, 2, 3))
            row->group = earlier->group;
        return;
    }
    avoid_clash(draft, row, at);
}

static void draw_dichotomy(struct chance *chance, struct draft *draft, unsigned at)
{
    static const char three[] = "+-.";
    char *dichotomy = draft->dichotomy[at];
    unsigned style = chance_below(chance, 8);
    unsigned start = 0;
    unsigned end = 2;
    if (style == 0)
        end = 1; /* `+` and `.`: the second block is empty */
    if (style == 1)
        start = 1; /* `-` and `.`: the first block is empty */
    if (style == 2 && at > 0) {
        memcpy(dichotomy, draft->dichotomy[chance_below(chance, at)], STATES);
        return;
    }
    for (unsigned state = 0; state < draft->states; state++) {
        dichotomy[state] = three[start + chance_below(chance, end - start)];
        bool left_out = style == 3 ? false : style == 4 ? chance_part(chance, 7, 8) : chance_part(chance, 1, 2);
        if (left_out)
            dichotomy[state] = '.';
    }
}

/* Dichotomies that are all different and name every state, state 0 with `+`: the others' signs are the digits of
   start + at * step, step being odd, so no two are alike while there are at most 2^(states - 1). */
static void draw_crowd(struct chance *chance, struct draft *draft)
{
    uint64_t start = chance_next(chance);
    uint64_t step = chance_next(chance) | 1;
    for (unsigned at = 0; at < draft->dichotomies; at++) {
        uint64_t signs = start + at * step;
        draft->dichotomy[at][0] = '+';
        for (unsigned state = 1; state < draft->states; state++)
            draft->dichotomy[at][state] = signs >> (state - 1) & 1 ? '-' : '+';
    }
}

/* The outputs of a Moore machine's state: all 0 where rows are quiet, now and then but for a dash or a 1; else any. */
static void draw_state_outputs(struct chance *chance, struct draft *draft, unsigned state)
{
    char *outputs = draft->state_outputs[state];
    bool quiet = chance_part(chance, draft->quiet_rows, 4);
    for (unsigned place = 0; place < draft->outputs; place++)
        outputs[place] = chance_part(chance, draft->output_dashes, 4) ? '-' : "01"[chance_below(chance, 2)];
    if (!quiet)
        return;
    memset(outputs, '0', OUTPUTS);
    if (chance_part(chance, 1, 3)) {
        char other = "-1"[chance_below(chance, 2)];
        outputs[chance_below(chance, draft->outputs)] = other;
    }
}

/* In which order the states' lines stand: ascending, descending, or any. */
static void draw_order(struct chance *chance, struct draft *draft)
{
    bool descending = chance_part(chance, 1, 5);
    bool any = !chance_part(chance, 1, 4);
    for (unsigned at = 0; at < draft->states; at++)
        draft->told[at] = descending ? draft->states - 1 - at : at;
    for (unsigned at = draft->states; any && at > 1; at--) {
        unsigned other = chance_below(chance, at);
        unsigned state = draft->told[at - 1];
        draft->told[at - 1] = draft->told[other];
        draft->told[other] = state;
    }
}

static void put(struct generated *listing, char byte)
{
    listing->bytes[listing->length] = (uint8_t)byte;
    listing->length++;
}

void generate_put_number(struct generated *listing, unsigned number)
{
    if (number >= 10)
        generate_put_number(listing, number / 10);
    put(listing, (char)('0' + number % 10));
}

void generate_put_text(struct generated *listing, const char *text)
{
    for (; *text != 0; text++)
        put(listing, *text);
}

static void put_text(struct generated *listing, const char *text, size_t length)
{
    for (size_t at = 0; at < length; at++)
        put(listing, text[at]);
}

static void put_set(struct generated *listing, uint64_t set, unsigned states)
{
    for (unsigned state = 0; state < states; state++)
        put(listing, set >> state & 1 ? '1' : '0');
}

static void write_row(const struct draft *draft, const struct row *row, struct generated *listing)
{
    put_text(listing, "PT ", 3);
    put_text(listing, row->input, draft->inputs);
    put(listing, ' ');
    put_set(listing, row->group, draft->states);
    put(listing, ' ');
    put_set(listing, row->next == NO_STATE ? 0 : (uint64_t)1 << row->next, draft->states);
    if (!draft->moore) {
        put(listing, ' ');
        put_text(listing, row->outputs, draft->outputs);
    }
    put(listing, '\n');
}

static void write_dichotomy(const struct draft *draft, const char *dichotomy, struct generated *listing)
{
    put_text(listing, "DI ", 3);
    put_text(listing, dichotomy, draft->states);
    put(listing, '\n');
}

static void write_outputs(const struct draft *draft, unsigned state, struct generated *listing)
{
    put_text(listing, "OU ", 3);
    generate_put_number(listing, state);
    put(listing, ' ');
    put_text(listing, draft->state_outputs[state], draft->outputs);
    put(listing, '\n');
}

static void write_head(const struct draft *draft, struct generated *listing)
{
    put_text(listing, draft->moore ? "MO " : "MC ", 3);
    generate_put_number(listing, draft->states);
    put(listing, ' ');
    generate_put_number(listing, draft->inputs);
    put(listing, ' ');
    generate_put_number(listing, draft->outputs);
    put(listing, ' ');
    generate_put_number(listing, draft->width);
    put_text(listing, draft->fifth, strlen(draft->fifth));
    put(listing, '\n');
}

/* Rows, dichotomies and the states' outputs each in their order, mixed with one another by chance. */
static void write_listing(struct chance *chance, const struct draft *draft, struct generated *listing)
{
    unsigned rows = draft->rows; /* how many are left of each */
    unsigned dichotomies = draft->dichotomies;
    unsigned states = draft->moore ? draft->states : 0;
    listing->length = 0;
    write_head(draft, listing);
    while (rows + dichotomies + states > 0) {
        unsigned at = chance_below(chance, rows + dichotomies + states);
        if (at < rows) {
            write_row(draft, &draft->row[draft->rows - rows], listing);
            rows--;
        } else if (at < rows + dichotomies) {
            write_dichotomy(draft, draft->dichotomy[draft->dichotomies - dichotomies], listing);
            dichotomies--;
        } else {
            write_outputs(draft, draft->told[draft->states - states], listing);
            states--;
        }
    }
    put_text(listing, "EN\n", 3);
}

/* Everything but the sizes. */
static void draw_rest(struct chance *chance, enum generate_family family, struct draft *draft)
{
    static const unsigned output_dashes[] = {0, 1, 1, 2};
    static const unsigned quiet_rows[] = {0, 1, 1, 2, 4};
    static const char *const fifth[] = {"", "", " 0", " 1"};
    draft->output_dashes = one_of(chance, output_dashes, LENGTH_OF(output_dashes));
    draft->quiet_rows = one_of(chance, quiet_rows, LENGTH_OF(quiet_rows));
    draft->fifth = fifth[chance_below(chance, LENGTH_OF(fifth))];
    for (unsigned row = 0; row < draft->rows; row++)
        draw_row(chance, family, draft, row);
    for (unsigned dichotomy = 0; dichotomy < draft->dichotomies; dichotomy++)
        draw_dichotomy(chance, draft, dichotomy);
    if (family == GENERATE_CROWD)
        draw_crowd(chance, draft);
    if (!draft->moore)
        return;
    for (unsigned state = 0; state < draft->states; state++)
        draw_state_outputs(chance, draft, state);
    draw_order(chance, draft);
}

void generate_profile(struct chance *chance, enum generate_family family, bool moore, struct generated *listing)
{
    static struct draft draft;
    if (family >= GENERATE_FLOW) {
        generate_flow(chance, family, listing);
        return;
    }
    draw_sizes(chance, family, &draft);
    draft.moore = moore;
    draw_rest(chance, family, &draft);
    write_listing(chance, &draft, listing);
    listing->kind = family;
    listing->states = draft.states;
    listing->inputs = draft.inputs;
    listing->outputs = draft.outputs;
    listing->moore = moore;
    listing->flow = false;
}

/* A third are Moore machines, but for the flow tables. */
void generate_good(struct chance *chance, enum generate_family family, struct generated *listing)
{
    bool moore = chance_part(chance, 1, 3);
    generate_profile(chance, family, moore, listing);
}

const char *generate_kind_name(unsigned kind)
{
    if (kind < GENERATE_FAMILIES)
        return families[kind].name;
    return generate_damage_name(kind - GENERATE_FAMILIES);
}

/* A good one of any family; or a small one, most often, with one to three damages. */
void generate_listing(uint64_t seed, uint64_t number, bool damaged, struct generated *listing)
{
    static const enum generate_family small[] = {GENERATE_TINY, GENERATE_TINY, GENERATE_SMALL, GENERATE_SMALL, GENERATE_FLOW};
    struct chance chance = chance_of(seed, number);
    enum generate_family family = draw_family(&chance);
    if (!damaged) {
        generate_good(&chance, family, listing);
        return;
    }
    if (chance_part(&chance, 3, 4))
        family = small[chance_below(&chance, LENGTH_OF(small))];
    generate_good(&chance, family, listing);
    unsigned first = generate_draw_damage(&chance);
    generate_damage(&chance, first, listing);
    for (unsigned more = chance_below(&chance, 8); more >= 6; more--)
        generate_damage(&chance, generate_draw_damage(&chance), listing);
    listing->kind = GENERATE_FAMILIES + first;
}
