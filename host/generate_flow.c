/* Good flow tables by chance: of every size, dense or full of dashes, with few destinations or many, each stable in its column. */
#include "generate.h"

/* The limits of 02's requests 05 and 09, written down again here so that the generator depends on no encoder. */
#define STATES 64
#define COLUMNS 16
#define INPUTS 16
#define OUTPUTS 32
#define DICHOTOMIES 64

#define DASH (-1)

struct table {
    unsigned states;
    unsigned columns;
    unsigned width;
    unsigned left;   /* how many dichotomies the columns still to be drawn may have */
    unsigned most;   /* and how many destinations each of them */
    unsigned dashes; /* of 8 entries that need not be destinations, so many are dashes */
    bool exact;      /* the columns are to have all the dichotomies that are left */
    int next[STATES][COLUMNS];
};

static unsigned pairs_of(unsigned sets)
{
    return sets * (sets - 1) / 2;
}

/* How many sets a column may have at most, for want of states, of dichotomies left, or by the table's own limit. */
static unsigned most_sets(const struct table *table)
{
    unsigned sets = 1;
    while (sets < table->states && sets < table->most && pairs_of(sets + 1) <= table->left)
        sets++;
    return sets;
}

/* A column of so many destinations, which are any states; the other states go to one of them, or have a dash. */
static void draw_column(struct chance *chance, struct table *table, unsigned column, unsigned sets)
{
    unsigned order[STATES];
    for (unsigned state = 0; state < table->states; state++)
        order[state] = state;
    for (unsigned at = 0; at < table->states; at++) {
        unsigned other = at + chance_below(chance, table->states - at);
        unsigned state = order[other];
        order[other] = order[at];
        order[at] = state;
        unsigned to = at < sets ? at : sets == 0 || chance_part(chance, table->dashes, 8) ? STATES : chance_below(chance, sets);
        table->next[state][column] = to == STATES ? DASH : (int)order[to];
    }
    table->left -= pairs_of(sets == 0 ? 1 : sets);
}

static unsigned sets_in(const struct table *table, unsigned column)
{
    unsigned sets = 0;
    for (unsigned state = 0; state < table->states; state++)
        sets += table->next[state][column] == (int)state;
    return sets;
}

/* The same sets as in another column, so that the dichotomies are equal; now and then they go to their last members, another
   destination for most. */
static void repeat_column(struct chance *chance, struct table *table, unsigned column, unsigned from)
{
    bool other_way = chance_part(chance, 1, 2);
    int goes_to[STATES];
    for (unsigned state = 0; state < table->states; state++)
        if (table->next[state][from] != DASH)
            goes_to[table->next[state][from]] = other_way ? (int)state : table->next[state][from];
    for (unsigned state = 0; state < table->states; state++)
        table->next[state][column] = table->next[state][from] == DASH ? DASH : goes_to[table->next[state][from]];
    table->left -= pairs_of(sets_in(table, from));
}

/* How many destinations the next column has. Where the number of dichotomies is to be exact, as many as there may be but for the
   first columns, so that the columns are enough. */
static unsigned draw_sets(struct chance *chance, const struct table *table, unsigned column)
{
    unsigned most = most_sets(table);
    if (table->exact)
        return column < 5 && most > 2 && chance_part(chance, 1, 2) ? chance_from(chance, 2, most) : most;
    if (chance_part(chance, 1, 12))
        return chance_below(chance, 2);
    return chance_from(chance, 1, most);
}

static void draw_columns(struct chance *chance, struct table *table)
{
    for (unsigned column = 0; column < table->columns; column++) {
        unsigned from = column == 0 ? 0 : chance_below(chance, column);
        unsigned sets = column == 0 ? 0 : sets_in(table, from);
        if (sets > 1 && pairs_of(sets) <= table->left && !table->exact && chance_part(chance, 1, 5))
            repeat_column(chance, table, column, from);
        else
            draw_column(chance, table, column, draw_sets(chance, table, column));
    }
}

/* Any table: of up to 32 states, most often few. */
static void draw_any(struct chance *chance, struct table *table)
{
    static const unsigned most[] = {2, 3, 4, STATES};
    table->states = chance_from(chance, 1, chance_part(chance, 1, 3) ? 3 : 9);
    if (chance_part(chance, 1, 6))
        table->states = chance_from(chance, 10, 32);
    table->columns = chance_from(chance, 1, chance_part(chance, 1, 5) ? COLUMNS : 5);
    if (chance_part(chance, 1, 12))
        table->columns = COLUMNS;
    table->most = most[chance_below(chance, LENGTH_OF(most))];
    table->left = DICHOTOMIES;
    table->exact = false;
}

/* A table of more than 32 states. */
static void draw_wide(struct chance *chance, struct table *table)
{
    draw_any(chance, table);
    table->states = chance_part(chance, 1, 6) ? STATES : chance_from(chance, 33, STATES);
    if (chance_part(chance, 1, 2))
        table->width = chance_from(chance, 1, 8);
}

/* A table of about 64 dichotomies: exactly so many, or one more, most often. */
static void draw_crowd(struct chance *chance, struct table *table)
{
    static const unsigned left[] = {
        DICHOTOMIES - 1, DICHOTOMIES,     DICHOTOMIES,     DICHOTOMIES,     DICHOTOMIES, DICHOTOMIES + 1,
        DICHOTOMIES + 1, DICHOTOMIES + 1, DICHOTOMIES + 2, DICHOTOMIES + 2, 150,
    };
    draw_any(chance, table);
    table->states = chance_from(chance, 4, chance_part(chance, 1, 4) ? 24 : 12);
    table->columns = COLUMNS;
    table->most = STATES;
    table->left = left[chance_below(chance, LENGTH_OF(left))];
    table->exact = true;
}

static void write_head(struct chance *chance, const struct table *table, struct generated *listing)
{
    static const char *const fifth[] = {"", "", " 0", " 1"};
    generate_put_text(listing, "MC ");
    generate_put_number(listing, table->states);
    generate_put_text(listing, " ");
    generate_put_number(listing, listing->inputs);
    generate_put_text(listing, " ");
    generate_put_number(listing, listing->outputs);
    generate_put_text(listing, " ");
    generate_put_number(listing, table->width);
    generate_put_text(listing, fifth[chance_below(chance, LENGTH_OF(fifth))]);
    generate_put_text(listing, "\n");
}

static void write_line(const struct table *table, unsigned state, struct generated *listing)
{
    generate_put_text(listing, "FT");
    for (unsigned column = 0; column < table->columns; column++) {
        generate_put_text(listing, table->next[state][column] == DASH ? " -" : " ");
        if (table->next[state][column] != DASH)
            generate_put_number(listing, (unsigned)table->next[state][column]);
    }
    generate_put_text(listing, "\n");
}

void generate_flow(struct chance *chance, enum generate_family family, struct generated *listing)
{
    static const unsigned dashes[] = {0, 0, 2, 6, 8};
    static struct table table;
    table.width = chance_part(chance, 1, 4) ? chance_from(chance, 1, 6) : 0;
    if (family == GENERATE_FLOW_WIDE)
        draw_wide(chance, &table);
    else if (family == GENERATE_FLOW_CROWD)
        draw_crowd(chance, &table);
    else
        draw_any(chance, &table);
    table.dashes = dashes[chance_below(chance, LENGTH_OF(dashes))];
    draw_columns(chance, &table);
    listing->kind = family;
    listing->states = table.states;
    listing->inputs = chance_from(chance, 1, chance_part(chance, 1, 8) ? INPUTS : 4);
    listing->outputs = chance_from(chance, 1, chance_part(chance, 1, 8) ? OUTPUTS : 4);
    listing->moore = false;
    listing->flow = true;
    listing->length = 0;
    write_head(chance, &table, listing);
    for (unsigned state = 0; state < table.states; state++)
        write_line(&table, state, listing);
    generate_put_text(listing, "EN\n");
}
