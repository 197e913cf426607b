/* Good KISS2 texts by chance: machines of every size, whose lines join into rows, with names of every sort. */
#include "generate_kiss.h"

/* The limits of 01 and 02, written down again here so that the generator depends on no encoder. */
#define STATES 64
#define INPUTS 16
#define OUTPUTS 32
#define ROWS 128
#define NAME 31
#define BYTES 65536

#define LINES 8200        /* more than BYTES can hold */
#define NAMES (STATES + 3) /* more than may be, and one that only `.r` names */
#define STAR (-1)         /* present: any state; next: none */

/* Each family's name and how often it is drawn, out of 1,000: those that take an encoder long are seldom. */
static const struct {
    const char *name;
    unsigned weight;
} families[KISS_FAMILIES] = {
    [KISS_TINY] = {"tiny", 170},
    [KISS_SMALL] = {"small", 220},
    [KISS_MIDDLE] = {"middle", 100},
    [KISS_LARGE] = {"large", 40},
    [KISS_WIDE] = {"wide", 80},
    [KISS_MANY_ROWS] = {"many rows", 80},
    [KISS_MANY_STATES] = {"many states", 50},
    [KISS_JOINED] = {"joined", 50},
    [KISS_FULL] = {"full", 10},
    [KISS_STARS] = {"stars", 80},
    [KISS_CLASH] = {"clash", 60},
    [KISS_WRONG_COUNTS] = {"wrong counts", 60},
};

struct row {
    char input[INPUTS];
    int next;
    char outputs[OUTPUTS];
    uint64_t group; /* of the lines that were drawn for it */
    bool any;       /* one of them has the present state `*` */
};

struct line {
    unsigned row;
    int present;
};

struct name {
    unsigned length;
    uint8_t bytes[NAME];
};

struct draft {
    unsigned states; /* to be named */
    unsigned inputs;
    unsigned outputs;
    unsigned stars; /* of 12 present or next states, so many are `*` */
    unsigned rows;
    unsigned lines;
    bool clashes; /* some are wanted */
    struct row row[ROWS + 3];
    struct line line[LINES];
    int reset; /* a name, or STAR where there is no `.r` */
    bool used[NAMES];
    struct name name[NAMES];
};

/* ---- sizes ---- */

static void draw_sizes(struct chance *chance, enum kiss_family family, struct draft *draft)
{
    static const struct {
        unsigned states[2], rows[2], more[2]; /* least and most; `more` lines than rows */
    } sizes[KISS_FAMILIES] = {
        [KISS_TINY] = {{1, 3}, {0, 5}, {0, 4}},
        [KISS_SMALL] = {{2, 8}, {1, 12}, {0, 20}},
        [KISS_MIDDLE] = {{6, 16}, {1, 16}, {4, 40}},
        [KISS_LARGE] = {{17, 32}, {1, 10}, {20, 60}},
        [KISS_WIDE] = {{33, STATES}, {1, 5}, {60, 100}},
        [KISS_MANY_ROWS] = {{1, 6}, {ROWS - 3, ROWS + 2}, {0, 60}},
        [KISS_MANY_STATES] = {{STATES - 2, STATES + 2}, {1, 3}, {70, 80}},
        [KISS_JOINED] = {{1, 8}, {1, 30}, {300, 5000}},
        [KISS_FULL] = {{3, 3}, {0, 0}, {0, 0}},
        [KISS_STARS] = {{1, 10}, {1, 10}, {0, 20}},
        [KISS_CLASH] = {{2, 8}, {2, 12}, {0, 30}},
        [KISS_WRONG_COUNTS] = {{1, 6}, {1, 8}, {0, 12}},
    };
    bool many = family == KISS_MANY_ROWS;
    draft->states = chance_from(chance, sizes[family].states[0], sizes[family].states[1]);
    draft->rows = chance_from(chance, sizes[family].rows[0], sizes[family].rows[1]);
    draft->lines = draft->rows + chance_from(chance, sizes[family].more[0], sizes[family].more[1]);
    if (draft->rows == 0)
        draft->lines = 0;
    draft->inputs = chance_from(chance, many ? 5 : 1, 6);
    draft->outputs = chance_from(chance, many ? 3 : 1, 4);
    if (chance_part(chance, 1, 10))
        draft->inputs = chance_from(chance, many ? 5 : 1, INPUTS);
    if (chance_part(chance, 1, 10))
        draft->outputs = chance_from(chance, many ? 3 : 1, OUTPUTS);
    draft->stars = family == KISS_STARS ? 6 : chance_below(chance, 3);
    draft->clashes = family == KISS_CLASH || (family == KISS_WRONG_COUNTS && chance_part(chance, 1, 3));
}

/* ---- names ---- */

static bool is_taken(const struct draft *draft, unsigned at)
{
    const struct name *name = &draft->name[at];
    if (name->length == 1 && name->bytes[0] == '*')
        return true;
    for (unsigned other = 0; other < at; other++)
        if (draft->name[other].length == name->length &&
            memcmp(draft->name[other].bytes, name->bytes, name->length) == 0)
            return true;
    return false;
}

/* Any byte that a name may have. */
static uint8_t any_byte(struct chance *chance)
{
    uint8_t byte = (uint8_t)chance_next(chance);
    return byte == ' ' || byte == '\n' ? 'x' : byte;
}

static void name_word(struct name *name, const char *word)
{
    name->length = (unsigned)strlen(word);
    memcpy(name->bytes, word, name->length);
}

/* An earlier name with one byte other, one more, or one fewer: what a wrong comparison takes for the same. */
static void name_beside(struct chance *chance, const struct name *from, struct name *name)
{
    unsigned place = chance_part(chance, 1, 2) ? from->length - 1 : chance_below(chance, from->length);
    uint8_t byte = any_byte(chance);
    *name = *from;
    switch (chance_below(chance, 3)) {
    case 0:
        name->bytes[place] = byte;
        break;
    case 1:
        if (name->length < NAME)
            name->bytes[name->length++] = byte;
        break;
    default:
        name->length -= name->length > 1;
        break;
    }
}

static void draw_name(struct chance *chance, struct draft *draft, unsigned at, unsigned style)
{
    static const char *const words[] = {".e", ".i", ".r", ".",  "-",  "**", "*a",  "a*",
                                        "#",  "0",  "1",  "EN", "MC", "\t", "\r", "s\r"};
    struct name *name = &draft->name[at];
    switch (style) {
    case 0: /* s and a number, as tools write them */
        name->length = 2;
        name->bytes[0] = 's';
        name->bytes[1] = (uint8_t)('0' + at % 10);
        if (at >= 10) {
            name->length = 3;
            name->bytes[2] = (uint8_t)('0' + at % 10);
            name->bytes[1] = (uint8_t)('0' + at / 10);
        }
        break;
    case 1:
        name->length = 1;
        name->bytes[0] = any_byte(chance);
        break;
    case 2:
        name->length = NAME;
        for (unsigned place = 0; place < NAME; place++)
            name->bytes[place] = any_byte(chance);
        break;
    case 3:
        name_word(name, words[chance_below(chance, LENGTH_OF(words))]);
        break;
    case 4:
        if (at > 0) {
            name_beside(chance, &draft->name[chance_below(chance, at)], name);
            break;
        }
        __attribute__((fallthrough));
    default:
        name->length = chance_from(chance, 1, NAME);
        for (unsigned place = 0; place < name->length; place++)
            name->bytes[place] = (uint8_t)('a' + chance_below(chance, 26));
        break;
    }
}

static void draw_names(struct chance *chance, struct draft *draft)
{
    bool mixed = chance_part(chance, 1, 3);
    unsigned style = chance_part(chance, 1, 2) ? 0 : chance_below(chance, 6);
    for (unsigned at = 0; at < draft->states + 1; at++) {
        draw_name(chance, draft, at, mixed ? chance_below(chance, 6) : style);
        while (is_taken(draft, at))
            draw_name(chance, draft, at, chance_from(chance, 2, 5));
        draft->used[at] = false;
    }
}

/* ---- rows and lines ---- */

static bool is_equal(const struct draft *draft, const struct row *one, const struct row *other)
{
    return one->next == other->next && memcmp(one->input, other->input, draft->inputs) == 0 &&
           memcmp(one->outputs, other->outputs, draft->outputs) == 0;
}

static bool has_equal(const struct draft *draft, unsigned at)
{
    for (unsigned other = 0; other < at; other++)
        if (is_equal(draft, &draft->row[other], &draft->row[at]))
            return true;
    return false;
}

/* A row by chance; or one that is an earlier row but for one character or the next state, so that it nearly joins with it. */
static void draw_row(struct chance *chance, struct draft *draft, unsigned at)
{
    static const char three[] = "01-";
    struct row *row = &draft->row[at];
    unsigned dashes = chance_below(chance, 4);
    for (unsigned place = 0; place < draft->inputs; place++)
        row->input[place] = three[chance_part(chance, dashes, 6) ? 2 : chance_below(chance, 2)];
    for (unsigned place = 0; place < draft->outputs; place++)
        row->outputs[place] = three[chance_part(chance, 1, 5) ? 2 : chance_below(chance, 2)];
    row->next = chance_part(chance, draft->stars + 1, 12) ? STAR : (int)chance_below(chance, draft->states);
    if (at > 0 && chance_part(chance, 1, 4)) {
        const struct row *from = &draft->row[chance_below(chance, at)];
        unsigned input = chance_below(chance, draft->inputs);
        unsigned output = chance_below(chance, draft->outputs);
        char other = three[chance_below(chance, 3)];
        memcpy(row->input, from->input, sizeof row->input);
        memcpy(row->outputs, from->outputs, sizeof row->outputs);
        if (chance_part(chance, 1, 2))
            row->next = from->next;
        if (chance_part(chance, 1, 2))
            row->input[input] = other;
        else
            row->outputs[output] = other;
    }
    if (chance_part(chance, 1, 8))
        memset(row->outputs, '0', sizeof row->outputs);
    row->group = 0;
    row->any = false;
}

static void draw_rows(struct chance *chance, struct draft *draft)
{
    for (unsigned at = 0; at < draft->rows; at++) {
        unsigned tries = 0;
        do
            draw_row(chance, draft, at);
        while (has_equal(draft, at) && ++tries < 40);
    }
}

static bool share_input(const struct draft *draft, const struct row *one, const struct row *other)
{
    for (unsigned place = 0; place < draft->inputs; place++)
        if (one->input[place] != other->input[place] && one->input[place] != '-' && other->input[place] != '-')
            return false;
    return true;
}

/* Whether a line of this row and present state would send a state to two others. */
static bool clash(const struct draft *draft, unsigned at, int present)
{
    const struct row *row = &draft->row[at];
    for (unsigned other = 0; other < draft->rows; other++) {
        const struct row *with = &draft->row[other];
        bool share = present == STAR ? with->any || with->group != 0
                                     : with->any || (present < STATES && (with->group >> present & 1));
        if (share && row->next != STAR && with->next != STAR && row->next != with->next && share_input(draft, row, with))
            return true;
    }
    return false;
}

/* The lines: first each row once and each state as a present one once, in any order, then what comes. A line that clashes has
   another state, or its row, where this is its first line, names no next state; otherwise it is left out. */
static void draw_lines(struct chance *chance, struct draft *draft)
{
    unsigned lines = 0;
    unsigned shift = chance_below(chance, draft->states);
    for (unsigned at = 0; at < draft->lines; at++) {
        struct line *line = &draft->line[lines];
        line->row = at < draft->rows ? at : chance_below(chance, draft->rows);
        struct row *row = &draft->row[line->row];
        line->present = (int)(at < draft->states ? (at + shift) % draft->states : chance_below(chance, draft->states));
        if (chance_part(chance, draft->stars, 24))
            line->present = STAR;
        bool free = draft->clashes && chance_part(chance, 1, 2);
        for (unsigned tries = 0; tries < 4 && !free && clash(draft, line->row, line->present); tries++)
            line->present = (int)chance_below(chance, draft->states);
        if (!free && clash(draft, line->row, line->present)) {
            if (row->group != 0 || row->any)
                continue;
            row->next = STAR;
        }
        if (line->present == STAR)
            row->any = true;
        else if (line->present < STATES)
            row->group |= (uint64_t)1 << line->present;
        lines++;
    }
    draft->lines = lines;
}

static void shuffle_lines(struct chance *chance, struct draft *draft)
{
    for (unsigned at = draft->lines; at > 1; at--) {
        unsigned other = chance_below(chance, at);
        struct line line = draft->line[at - 1];
        draft->line[at - 1] = draft->line[other];
        draft->line[other] = line;
    }
}

/* None, one of the lines' states, or another. */
static void draw_reset(struct chance *chance, struct draft *draft)
{
    draft->reset = STAR;
    if (chance_part(chance, 1, 2))
        draft->reset = (int)chance_below(chance, draft->states);
    else if (chance_part(chance, 1, 3))
        draft->reset = (int)draft->states;
}

static unsigned count_states(struct draft *draft)
{
    unsigned states = 0;
    for (unsigned at = 0; at < draft->lines; at++) {
        const struct line *line = &draft->line[at];
        if (line->present != STAR)
            draft->used[line->present] = true;
        if (draft->row[line->row].next != STAR)
            draft->used[draft->row[line->row].next] = true;
    }
    if (draft->reset != STAR)
        draft->used[draft->reset] = true;
    for (unsigned at = 0; at < draft->states + 1; at++)
        states += draft->used[at];
    return states;
}

/* ---- writing ---- */

void kiss_put(struct kiss_text *text, const void *bytes, size_t length)
{
    size_t room = KISS_BYTES - text->length;
    memcpy(text->bytes + text->length, bytes, length < room ? length : room);
    text->length += length < room ? length : room;
}

void kiss_put_word(struct kiss_text *text, const char *word)
{
    kiss_put(text, word, strlen(word));
}

void kiss_put_number(struct kiss_text *text, unsigned number)
{
    uint8_t digit = (uint8_t)('0' + number % 10);
    if (number >= 10)
        kiss_put_number(text, number / 10);
    kiss_put(text, &digit, 1);
}

static void put_state(const struct draft *draft, int state, struct kiss_text *text)
{
    if (state == STAR)
        kiss_put_word(text, "*");
    else
        kiss_put(text, draft->name[state].bytes, draft->name[state].length);
}

static void put_header(struct kiss_text *text, const char *mark, unsigned number)
{
    kiss_put_word(text, mark);
    kiss_put_number(text, number);
    kiss_put_word(text, "\n");
}

static void write_line(const struct draft *draft, const struct line *line, struct kiss_text *text)
{
    const struct row *row = &draft->row[line->row];
    kiss_put(text, row->input, draft->inputs);
    kiss_put_word(text, " ");
    put_state(draft, line->present, text);
    kiss_put_word(text, " ");
    put_state(draft, row->next, text);
    kiss_put_word(text, " ");
    kiss_put(text, row->outputs, draft->outputs);
    kiss_put_word(text, "\n");
}

/* A number that is not the right one: next to it, that of the rows after joining or of the states without `.r`, or any. */
static unsigned wrong_number(struct chance *chance, const struct draft *draft, unsigned right)
{
    switch (chance_below(chance, 5)) {
    case 0:
        return right + 1;
    case 1:
        return right == 0 ? 1 : right - 1;
    case 2:
        return draft->rows;
    case 3:
        return draft->states;
    default:
        return chance_below(chance, 10000);
    }
}

/* What the headers say of states and lines, and whether they are there. */
struct counts {
    bool has_states;
    bool has_lines;
    unsigned states;
    unsigned lines;
};

static struct counts draw_counts(struct chance *chance, const struct draft *draft, unsigned states, bool wrong)
{
    struct counts counts = {.states = states, .lines = draft->lines};
    counts.has_states = chance_part(chance, 1, 2);
    counts.has_lines = chance_part(chance, 1, 2);
    if (wrong) {
        unsigned sort = chance_below(chance, 3);
        counts.has_states = counts.has_states || sort != 1;
        counts.has_lines = counts.has_lines || sort != 0;
        if (sort != 1)
            counts.states = wrong_number(chance, draft, states);
        if (sort != 0)
            counts.lines = wrong_number(chance, draft, draft->lines);
    }
    return counts;
}

/* "Headers in any order" (reading 21). */
static void write_headers(struct chance *chance, const struct draft *draft, struct counts counts, struct kiss_text *text)
{
    unsigned order[] = {0, 1, 2, 3, 4};
    for (unsigned at = 5; at > 1; at--) {
        unsigned other = chance_below(chance, at);
        unsigned header = order[at - 1];
        order[at - 1] = order[other];
        order[other] = header;
    }
    for (unsigned at = 0; at < 5; at++) {
        if (order[at] == 0)
            put_header(text, ".i ", draft->inputs);
        if (order[at] == 1)
            put_header(text, ".o ", draft->outputs);
        if (order[at] == 2 && counts.has_states)
            put_header(text, ".s ", counts.states);
        if (order[at] == 3 && counts.has_lines)
            put_header(text, ".p ", counts.lines);
        if (order[at] == 4 && draft->reset != STAR) {
            kiss_put_word(text, ".r ");
            put_state(draft, draft->reset, text);
            kiss_put_word(text, "\n");
        }
    }
}

/* Lines of chance names, then as many of 8 and of 9 bytes as it takes to come to a length at the limit or next to it. */
static void write_full(struct chance *chance, struct draft *draft, struct kiss_text *text)
{
    static const unsigned ends[] = {BYTES, BYTES, BYTES - 1, BYTES + 1, BYTES + 300, BYTES - 300};
    static const char inputs[] = "01-";
    size_t end = ends[chance_below(chance, LENGTH_OF(ends))] - 3;
    draft->name[0].length = 1;
    draft->name[0].bytes[0] = 'a';
    draft->name[1].length = 2;
    memcpy(draft->name[1].bytes, "bb", 2);
    draft->name[2].length = chance_from(chance, 3, NAME);
    memset(draft->name[2].bytes, 'c', NAME);
    kiss_put_word(text, ".o 1\n.i 1\n");
    while (text->length + 200 < end) {
        char row[4] = {inputs[chance_below(chance, 3)], ' ', 0, 0};
        kiss_put_word(text, row);
        put_state(draft, chance_part(chance, 1, 8) ? STAR : (int)chance_below(chance, 3), text);
        kiss_put_word(text, chance_part(chance, 1, 3) ? " * " : " a ");
        kiss_put_word(text, chance_part(chance, 1, 2) ? "1\n" : "-\n");
    }
    for (size_t nines = (end - text->length) % 8; nines > 0; nines--)
        kiss_put_word(text, "0 bb a 1\n");
    while (text->length < end)
        kiss_put_word(text, "- a a 1\n");
    kiss_put_word(text, ".e\n");
}

void kiss_good(struct chance *chance, enum kiss_family family, struct kiss_text *text)
{
    static struct draft draft;
    draw_sizes(chance, family, &draft);
    draw_names(chance, &draft);
    draw_rows(chance, &draft);
    draw_lines(chance, &draft);
    if (chance_part(chance, 2, 3))
        shuffle_lines(chance, &draft);
    draw_reset(chance, &draft);
    text->kind = family;
    text->states = count_states(&draft);
    text->inputs = draft.inputs;
    text->outputs = draft.outputs;
    text->length = 0;
    if (family == KISS_FULL) {
        write_full(chance, &draft, text);
        return;
    }
    if (text->states == 0) { /* `.e` with no state is a damage */
        draft.reset = 0;
        text->states = 1;
    }
    write_headers(chance, &draft, draw_counts(chance, &draft, text->states, family == KISS_WRONG_COUNTS), text);
    for (unsigned at = 0; at < draft.lines; at++)
        write_line(&draft, &draft.line[at], text);
    kiss_put_word(text, ".e\n");
}

/* ---- the run ---- */

const char *kiss_kind_name(unsigned kind)
{
    return kind < KISS_FAMILIES ? families[kind].name : kiss_damage_name(kind - KISS_FAMILIES);
}

static enum kiss_family draw_family(struct chance *chance)
{
    unsigned at = chance_below(chance, 1000);
    unsigned family = 0;
    while (at >= families[family].weight) {
        at -= families[family].weight;
        family++;
    }
    return (enum kiss_family)family;
}

/* A good one of any family; or a small one, most often, with one to three damages. */
void kiss_generate(uint64_t seed, uint64_t number, bool damaged, struct kiss_text *text)
{
    struct chance chance = chance_of(seed ^ 0x6B697373, number);
    enum kiss_family family = draw_family(&chance);
    if (!damaged) {
        kiss_good(&chance, family, text);
        return;
    }
    if (chance_part(&chance, 5, 6))
        family = chance_part(&chance, 1, 2) ? KISS_TINY : KISS_SMALL;
    kiss_good(&chance, family, text);
    unsigned first = kiss_draw_damage(&chance);
    kiss_damage(&chance, first, text);
    for (unsigned more = chance_below(&chance, 8); more >= 6; more--)
        kiss_damage(&chance, kiss_draw_damage(&chance), text);
    text->kind = KISS_FAMILIES + first;
}
