/* Recorded runs by chance. The walk through a machine is read off the `PT` lines of its listing, so that no encoder is needed here. */
#include "generate_run.h"

#define STATES 64
#define ROWS 129

/* Each kind's name and how often it is drawn, out of 1,000. The long ones take both encoders long. */
static const struct {
    const char *name;
    unsigned weight;
} kinds[RUN_KINDS] = {
    [RUN_WALK] = {"walk", 254},
    [RUN_CHANCE] = {"chance", 80},
    [RUN_STUCK] = {"stuck", 130},
    [RUN_START] = {"start alone", 20},
    [RUN_LONG] = {"long", 6},
    [RUN_OVER] = {"over", 6},
    [RUN_REFUSED] = {"listing refused", 150},
    [RUN_NO_BYTES] = {"no bytes", 15},
    [RUN_START_MARK] = {"start's mark", 30},
    [RUN_START_NUMBER] = {"start's number", 25},
    [RUN_START_RANGE] = {"start's range", 25},
    [RUN_START_FIELDS] = {"start's fields", 20},
    [RUN_START_NO_LF] = {"start without LF", 10},
    [RUN_MARK] = {"mark", 25},
    [RUN_CHARACTER] = {"character", 25},
    [RUN_SHORT] = {"short", 20},
    [RUN_LONGER] = {"longer", 20},
    [RUN_SPACE] = {"space", 25},
    [RUN_SECOND_START] = {"second start", 20},
    [RUN_BLANK] = {"blank line", 20},
    [RUN_NO_LF] = {"no LF", 20},
    [RUN_LINE_END] = {"CR LF", 15},
    [RUN_ANY_BYTE] = {"any byte", 36},
    [RUN_OVER_BAD] = {"over and bad", 3},
};

const char *run_kind_name(enum run_kind kind)
{
    return kinds[kind].name;
}

/* ---- listings ---- */

static char any_of(struct chance *chance, const char *characters)
{
    return characters[chance_below(chance, (unsigned)strlen(characters))];
}

static void put(struct generated *listing, char byte)
{
    listing->bytes[listing->length] = (uint8_t)byte;
    listing->length++;
}

/* The head line, with no width most often: a narrow code is refused 9. */
static void put_head(struct chance *chance, struct generated *listing)
{
    static const char *const fifth[] = {"", "", " 0", " 1"};
    unsigned numbers[] = {listing->states, listing->inputs, listing->outputs,
                          chance_part(chance, 1, 25) ? chance_from(chance, 1, 4) : 0};
    listing->length = 0;
    generate_put_text(listing, listing->moore ? "MO" : "MC");
    for (unsigned at = 0; at < LENGTH_OF(numbers); at++) {
        put(listing, ' ');
        generate_put_number(listing, numbers[at]);
    }
    generate_put_text(listing, fifth[chance_below(chance, LENGTH_OF(fifth))]);
    put(listing, '\n');
}

static void put_outputs(struct chance *chance, struct generated *listing)
{
    static const char *const sorts[] = {"01", "001-", "01-", "01--"};
    const char *sort = sorts[chance_below(chance, LENGTH_OF(sorts))];
    for (unsigned place = 0; place < listing->outputs; place++)
        put(listing, any_of(chance, sort));
    put(listing, '\n');
}

/* A row of these states; the inputs from `split` on are dashes, those before it the digits of `cube`. */
static void put_row(struct chance *chance, struct generated *listing, uint64_t group, unsigned split, unsigned cube, bool names)
{
    unsigned next = chance_below(chance, listing->states);
    generate_put_text(listing, "PT ");
    for (unsigned place = 0; place < listing->inputs; place++)
        put(listing, place >= split ? '-' : cube >> place & 1 ? '1' : '0');
    put(listing, ' ');
    for (unsigned state = 0; state < listing->states; state++)
        put(listing, group >> state & 1 ? '1' : '0');
    put(listing, ' ');
    for (unsigned state = 0; state < listing->states; state++)
        put(listing, names && state == next ? '1' : '0');
    put(listing, listing->moore ? '\n' : ' ');
    if (!listing->moore)
        put_outputs(chance, listing);
}

static void draw_sizes(struct chance *chance, bool small, struct generated *listing)
{
    listing->states = chance_from(chance, 1, 8);
    if (!small && chance_part(chance, 1, 6))
        listing->states = chance_from(chance, 9, 20);
    if (!small && chance_part(chance, 1, 60))
        listing->states = chance_from(chance, 33, STATES);
    listing->inputs = chance_part(chance, 1, 12) ? chance_from(chance, 1, 16) : chance_from(chance, 1, 4);
    listing->outputs = chance_part(chance, 1, 12) ? chance_from(chance, 1, 32) : chance_from(chance, 1, 4);
    listing->moore = chance_part(chance, 1, 3);
    listing->flow = false;
    listing->kind = 0;
}

/* The states are parted in blocks and the vectors by their first places; each block has a row for each part. Rows that name no next state
   come among them, and where another row's dash meets a 1 of theirs, or the other way round, the cover writes 0. A small machine has all rows
   of the first part, so that every state has a step. */
void run_complete(struct chance *chance, bool small, struct generated *listing)
{
    uint64_t block[3] = {0, 0, 0};
    draw_sizes(chance, small, listing);
    unsigned split = chance_below(chance, listing->inputs < 2 ? listing->inputs + 1 : 3);
    unsigned blocks = chance_from(chance, 1, 3);
    bool gap = chance_part(chance, small ? 9 : 2, 12);
    for (unsigned state = 0; state < listing->states; state++)
        block[chance_below(chance, blocks)] |= (uint64_t)1 << state;
    put_head(chance, listing);
    for (unsigned at = 0; at < blocks << split; at++) {
        uint64_t group = block[at % blocks];
        if (group == 0 || (gap && (!small || at >= blocks) && chance_part(chance, small ? 3 : 1, 4)))
            continue;
        put_row(chance, listing, group, split, at / blocks, true);
        if (chance_part(chance, 1, 3))
            put_row(chance, listing, chance_part(chance, 1, 2) ? group : group & (~group + 1), split, at / blocks, false);
    }
    for (unsigned state = 0; listing->moore && state < listing->states; state++) {
        generate_put_text(listing, "OU ");
        generate_put_number(listing, state);
        put(listing, ' ');
        put_outputs(chance, listing);
    }
    generate_put_text(listing, "EN\n");
}

/* A listing that is answered, most often. Those of "wide" and "large" are few, since the second encoder takes long on them. */
static void draw_listing(struct chance *chance, struct generated *listing)
{
    static const enum generate_family families[] = {GENERATE_TINY,  GENERATE_TINY, GENERATE_SMALL,    GENERATE_SMALL,
                                                    GENERATE_SMALL, GENERATE_EDGE, GENERATE_MIDDLE,   GENERATE_MANY_ROWS,
                                                    GENERATE_FLOW,  GENERATE_FLOW, GENERATE_FLOW_WIDE};
    if (chance_part(chance, 3, 5)) {
        run_complete(chance, false, listing);
        return;
    }
    enum generate_family family = families[chance_below(chance, LENGTH_OF(families))];
    if (chance_part(chance, 1, 60))
        family = chance_part(chance, 1, 2) ? GENERATE_LARGE : GENERATE_WIDE;
    generate_good(chance, family, listing);
}

/* Narrow ones for 9, crowds for 7, clashes for 6, flow crowds for 2, and damaged ones. */
static void draw_refused(struct chance *chance, uint64_t seed, uint64_t number, struct generated *listing)
{
    switch (chance_below(chance, 16)) {
    case 0:
    case 1:
    case 2:
    case 3:
    case 4:
        generate_good(chance, GENERATE_NARROW, listing);
        break;
    case 5:
    case 6:
        generate_good(chance, GENERATE_CLASH, listing);
        break;
    case 7:
        generate_good(chance, GENERATE_CROWD, listing);
        break;
    case 8:
        generate_good(chance, GENERATE_FLOW_CROWD, listing);
        break;
    default:
        generate_listing(seed + 1, number, true, listing);
    }
}

/* ---- the machine that is walked through ---- */

/* A `PT` line's three fields. */
struct row {
    const uint8_t *input;
    const uint8_t *group;
    const uint8_t *next;
};

struct walk {
    unsigned states, inputs;
    unsigned rows;
    struct row row[ROWS];
    unsigned state;
};

/* The `PT` lines that have the machine's sizes; of a damaged listing, whose answer no vector changes, any. */
static void find_rows(const struct generated *listing, struct walk *walk)
{
    walk->states = listing->states;
    walk->inputs = listing->inputs;
    walk->rows = 0;
    for (size_t at = 0; at < listing->length;) {
        size_t end = at;
        while (end < listing->length && listing->bytes[end] != '\n')
            end++;
        if (end - at >= 5 + walk->inputs + 2 * walk->states && listing->bytes[at] == 'P' && walk->rows < ROWS) {
            struct row *row = &walk->row[walk->rows];
            row->input = listing->bytes + at + 3;
            row->group = row->input + walk->inputs + 1;
            row->next = row->group + walk->states + 1;
            walk->rows++;
        }
        at = end + 1;
    }
}

/* The next state that a row names, or as many as there are. */
static unsigned named_by(const struct walk *walk, const struct row *row)
{
    unsigned next = 0;
    while (next < walk->states && row->next[next] != '1')
        next++;
    return next;
}

static unsigned next_of(const struct walk *walk, const char *vector)
{
    for (unsigned at = 0; at < walk->rows; at++) {
        const struct row *row = &walk->row[at];
        bool fires = row->group[walk->state] == '1';
        for (unsigned place = 0; place < walk->inputs; place++)
            fires = fires && (row->input[place] == '-' || row->input[place] == (uint8_t)vector[place]);
        if (fires && named_by(walk, row) < walk->states)
            return named_by(walk, row);
    }
    return walk->states;
}

static void any_vector(struct chance *chance, const struct walk *walk, char *vector)
{
    for (unsigned place = 0; place < walk->inputs; place++)
        vector[place] = any_of(chance, "01");
}

/* A vector for which the present state has a next one, if a row says so. */
static void going_vector(struct chance *chance, const struct walk *walk, char *vector)
{
    unsigned first = walk->rows == 0 ? 0 : chance_below(chance, walk->rows);
    any_vector(chance, walk, vector);
    for (unsigned past = 0; past < walk->rows; past++) {
        const struct row *row = &walk->row[(first + past) % walk->rows];
        if (row->group[walk->state] != '1' || named_by(walk, row) == walk->states)
            continue;
        for (unsigned place = 0; place < walk->inputs; place++)
            if (row->input[place] != '-')
                vector[place] = (char)row->input[place];
        return;
    }
}

/* A vector for which it has none, if one of some tries is such. */
static void stuck_vector(struct chance *chance, const struct walk *walk, char *vector)
{
    for (unsigned tries = 0; tries < 12; tries++) {
        any_vector(chance, walk, vector);
        if (next_of(walk, vector) == walk->states)
            return;
    }
}

/* ---- runs ---- */

static void put_run(struct run_text *run, const char *bytes, size_t length)
{
    memcpy(run->bytes + run->length, bytes, length);
    run->length += length;
}

static void put_run_number(struct run_text *run, unsigned number)
{
    char digit = (char)('0' + number % 10);
    if (number >= 10)
        put_run_number(run, number / 10);
    put_run(run, &digit, 1);
}

static void put_start(struct run_text *run, unsigned state)
{
    put_run(run, "SS ", 3);
    put_run_number(run, state);
    put_run(run, "\n", 1);
}

/* An `IN` line, and the step that it makes, if it makes one. */
static void put_input(struct run_text *run, struct walk *walk, const char *vector)
{
    unsigned next = next_of(walk, vector);
    put_run(run, "IN ", 3);
    put_run(run, vector, walk->inputs);
    put_run(run, "\n", 1);
    if (next < walk->states)
        walk->state = next;
}

static void put_walk(struct chance *chance, struct run_text *run, struct walk *walk, unsigned steps)
{
    char vector[16];
    for (unsigned at = 0; at < steps; at++) {
        going_vector(chance, walk, vector);
        put_input(run, walk, vector);
    }
}

static unsigned draw_steps(struct chance *chance)
{
    if (chance_part(chance, 1, 60))
        return chance_from(chance, 100, 1500);
    return chance_part(chance, 1, 4) ? chance_from(chance, 0, 40) : chance_from(chance, 1, 8);
}

static void put_stuck(struct chance *chance, struct run_text *run, struct walk *walk)
{
    static const char *const behind[] = {"", "", "IN 0\n", "IN x\n", "SS 0\n", "\n", "IN"};
    const char *more = behind[chance_below(chance, LENGTH_OF(behind))];
    char vector[16];
    put_walk(chance, run, walk, chance_below(chance, 6));
    stuck_vector(chance, walk, vector);
    put_input(run, walk, vector);
    if (chance_part(chance, 1, 2))
        put_walk(chance, run, walk, 2);
    put_run(run, more, strlen(more));
}

/* How many inputs a kind of run has; a long one has about as many as a run may have. */
static unsigned inputs_of(struct chance *chance, enum run_kind kind)
{
    switch (kind) {
    case RUN_START:
        return 0;
    case RUN_LONG:
        return 10000 - (chance_part(chance, 1, 4) ? 1 : 0);
    case RUN_OVER:
        return 10001 + (chance_part(chance, 1, 4) ? 1 : 0);
    case RUN_OVER_BAD:
        return 10001;
    default:
        return draw_steps(chance) + (kind >= RUN_NO_BYTES);
    }
}

static void write_run(struct chance *chance, struct run_text *run)
{
    static struct walk walk;
    char vector[16];
    find_rows(&run->listing, &walk);
    walk.state = chance_below(chance, walk.states);
    run->length = 0;
    put_start(run, walk.state);
    if (run->kind == RUN_STUCK) {
        put_stuck(chance, run, &walk);
        return;
    }
    unsigned steps = inputs_of(chance, run->kind);
    if (run->kind == RUN_OVER && chance_part(chance, 3, 4)) { /* the 10,001st names no next state, if one can */
        put_walk(chance, run, &walk, 10000);
        stuck_vector(chance, &walk, vector);
        put_input(run, &walk, vector);
        return;
    }
    if (run->kind != RUN_CHANCE) {
        put_walk(chance, run, &walk, steps);
        return;
    }
    for (unsigned at = 0; at < steps; at++) {
        any_vector(chance, &walk, vector);
        put_input(run, &walk, vector);
    }
}

/* ---- faults ---- */

/* Bytes from `at` on, so many, are replaced. */
static void replace(struct run_text *run, size_t at, size_t length, const char *by)
{
    size_t more = strlen(by);
    memmove(run->bytes + at + more, run->bytes + at + length, run->length - at - length);
    memcpy(run->bytes + at, by, more);
    run->length = run->length - length + more;
}

/* Where a line begins: the first is that of `SS`, and every other has the same length. */
static size_t start_length(const struct run_text *run)
{
    size_t length = 0;
    while (run->bytes[length] != '\n')
        length++;
    return length + 1;
}

/* A line of an input by chance, often the first or the last; that of the 10,001st where it is meant. */
static size_t draw_line(struct chance *chance, const struct run_text *run)
{
    size_t line = run->listing.inputs + 4;
    size_t first = start_length(run);
    unsigned lines = (unsigned)((run->length - first) / line);
    unsigned drawn = chance_below(chance, lines);
    if (chance_part(chance, 1, 4) || run->kind == RUN_OVER_BAD)
        drawn = lines - 1;
    else if (chance_part(chance, 1, 4))
        drawn = 0;
    return first + drawn * line;
}

/* What is no number, and would be that of a state if any byte were taken for a digit. */
static void spoil_digit(struct chance *chance, struct run_text *run, size_t length)
{
    char text[] = "SS 1/\n";
    if (chance_part(chance, 1, 2)) {
        text[3] = (char)('0' + chance_from(chance, 10, run->listing.states - 1));
        text[4] = '\n';
        text[5] = 0;
    } else {
        text[4] = any_of(chance, "/.-");
    }
    replace(run, 0, length, text);
}

/* n, or a greater number. */
static void spoil_range(struct chance *chance, struct run_text *run, size_t length)
{
    char number[] = "000";
    unsigned state = run->listing.states;
    if (chance_part(chance, 1, 3))
        state = chance_from(chance, state, 999);
    number[0] = (char)('0' + state / 100);
    number[1] = (char)('0' + state / 10 % 10);
    number[2] = (char)('0' + state % 10);
    replace(run, 3, length - 4, state < 10 ? number + 2 : state < 100 ? number + 1 : number);
}

/* Another first line. */
static void spoil_start(struct chance *chance, struct run_text *run)
{
    static const char *const marks[] = {"IN 0\n", "ST 0\n", "ss 0\n", "SSX 0\n", " SS 0\n", "\n", "S 0\n", "SS\t0\n", "MC 2 1 1 0\n"};
    static const char *const numbers[] = {"SS 00\n", "SS 01\n", "SS x\n", "SS 00000\n", "SS +0\n", "SS -1\n", "SS 0x\n", "SS 10000\n",
                                          "SS -\n",  "SS /\n",  "SS :\n", "SS 4294967296\n", "SS 18446744073709551616\n"};
    static const char *const fields[] = {"SS\n", "SS \n", "SS  0\n", "SS 0 \n", "SS 0 0\n", "SS 0\r\n"};
    size_t length = start_length(run);
    switch (run->kind) {
    case RUN_START_MARK:
        if (chance_part(chance, 1, 3))
            replace(run, 0, length, ""); /* the first `IN` comes first */
        else
            replace(run, 0, length, marks[chance_below(chance, LENGTH_OF(marks))]);
        break;
    case RUN_START_NUMBER:
        if (run->listing.states > 10)
            spoil_digit(chance, run, length);
        else
            replace(run, 0, length, numbers[chance_below(chance, LENGTH_OF(numbers))]);
        break;
    case RUN_START_RANGE:
        spoil_range(chance, run, length);
        break;
    case RUN_START_NO_LF:
        run->length = length - 1 - chance_below(chance, 3);
        break;
    default:
        replace(run, 0, length, fields[chance_below(chance, LENGTH_OF(fields))]);
    }
}

/* One fault in a line of an input. */
static void spoil_line(struct chance *chance, struct run_text *run)
{
    static const char *const marks[] = {"in", "IM", "PT", "EN", "ST", "I", "INX", "\tIN", " IN"};
    static const char *const characters[] = {"-", "-", "-", "2", "x", "/", ":", "\t", "O", " "};
    size_t at = draw_line(chance, run);
    size_t vector = at + 3 + chance_below(chance, run->listing.inputs);
    size_t end = at + 3 + run->listing.inputs;
    switch (run->kind) {
    case RUN_MARK:
        replace(run, at, 2, marks[chance_below(chance, LENGTH_OF(marks))]);
        break;
    case RUN_SHORT:
        replace(run, vector, 1, "");
        break;
    case RUN_LONGER:
        replace(run, vector, 0, chance_part(chance, 1, 2) ? "0" : "1");
        break;
    case RUN_SPACE:
        replace(run, chance_part(chance, 1, 3) ? at : chance_part(chance, 1, 2) ? at + 2 : end, 0, " ");
        break;
    case RUN_SECOND_START:
        replace(run, chance_part(chance, 1, 2) ? at : end + 1, 0, "SS 0\n");
        break;
    case RUN_BLANK:
        replace(run, chance_part(chance, 1, 2) ? at : end + 1, 0, "\n");
        break;
    case RUN_NO_LF:
        run->length = chance_part(chance, 1, 2) ? end : at + 1 + chance_below(chance, run->listing.inputs + 2);
        break;
    case RUN_LINE_END:
        replace(run, end, 0, "\r");
        break;
    case RUN_ANY_BYTE: {
        uint8_t other = (uint8_t)chance_next(chance);
        run->bytes[chance_below(chance, (unsigned)run->length)] = other;
        break;
    }
    default: /* RUN_CHARACTER, RUN_OVER_BAD */
        replace(run, vector, 1, characters[chance_below(chance, LENGTH_OF(characters))]);
    }
}

/* ---- one of each kind ---- */

static enum run_kind draw_kind(struct chance *chance)
{
    unsigned at = chance_below(chance, 1000);
    unsigned kind = 0;
    while (at >= kinds[kind].weight) {
        at -= kinds[kind].weight;
        kind++;
    }
    return (enum run_kind)kind;
}

static bool is_long(enum run_kind kind)
{
    return kind == RUN_LONG || kind == RUN_OVER || kind == RUN_OVER_BAD;
}

/* Over a listing that is refused, any sort of run, good or not. */
static void draw_both(struct chance *chance, uint64_t seed, uint64_t number, struct run_text *run)
{
    enum run_kind kind = run->kind;
    if (kind == RUN_REFUSED) {
        draw_refused(chance, seed, number, &run->listing);
        do
            run->kind = draw_kind(chance);
        while (is_long(run->kind));
    } else if (is_long(kind)) {
        run_complete(chance, true, &run->listing);
    } else {
        draw_listing(chance, &run->listing);
    }
    write_run(chance, run);
    if (run->kind == RUN_NO_BYTES)
        run->length = 0;
    else if (run->kind >= RUN_START_MARK && run->kind <= RUN_START_NO_LF)
        spoil_start(chance, run);
    else if (run->kind >= RUN_MARK)
        spoil_line(chance, run);
    run->kind = kind;
}

void run_generate(uint64_t seed, uint64_t number, struct run_text *run)
{
    struct chance chance = chance_of(seed, number);
    run->kind = draw_kind(&chance);
    draw_both(&chance, seed, number, run);
}
