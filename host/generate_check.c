/* Checks by chance: listings of the other tests, codes of ours and of other encoders, and covers that agree or have changes. */
#include "generate_check.h"
#include "second.h"

static struct generated listing;
static struct second_machine machine;
static struct second_requirements requirements;
static struct check_cover draft;

/* ---- the listing ---- */

/* Small machines most often; those of many states or rows seldom, as the second encoder runs every input. */
static enum generate_family draw_family(struct chance *chance)
{
    static const struct {
        enum generate_family family;
        unsigned weight;
    } weights[] = {
        {GENERATE_TINY, 18}, {GENERATE_SMALL, 36},    {GENERATE_MIDDLE, 14}, {GENERATE_LARGE, 4}, {GENERATE_WIDE, 6},
        {GENERATE_EDGE, 7},  {GENERATE_MANY_ROWS, 4}, {GENERATE_NARROW, 4},  {GENERATE_CLASH, 2}, {GENERATE_FLOW, 5},
    };
    unsigned at = chance_below(chance, 100);
    unsigned family = 0;
    while (at >= weights[family].weight) {
        at -= weights[family].weight;
        family++;
    }
    return weights[family].family;
}

/* Whether the plain way takes long: it looks at every row for every input and state. */
static bool takes_long(uint64_t most)
{
    return (uint64_t)listing.states * (listing.length / 16) << listing.inputs > most;
}

/* A listing that is soon judged, now and then one that is not; a few have all 16 inputs. */
static void draw_listing(struct chance *chance)
{
    uint64_t most = chance_part(chance, 1, 20) ? 400000 : 40000;
    bool full = chance_part(chance, 1, 250);
    do {
        generate_good(chance, full ? GENERATE_EDGE : draw_family(chance), &listing);
    } while (full ? listing.inputs != SECOND_INPUTS || takes_long(4000000) : takes_long(most));
}

static bool is_read(void)
{
    if (second_read_lines(listing.bytes, listing.length, &machine).number != SECOND_FINE ||
        second_find_conflict(&machine).number != SECOND_FINE)
        return false;
    second_draw_up(&machine, &requirements);
    return true;
}

/* ---- codes ---- */

static uint64_t any_column(struct chance *chance)
{
    return chance_next(chance) & second_all_states(machine.states);
}

static void add_column(struct second_code *code, uint64_t column)
{
    if (code->bits < SECOND_WIDTH)
        code->bit[code->bits++] = column;
}

/* In as many bits as it takes, or, now and then, in as many as the listing says. */
static void draw_own(struct chance *chance, struct second_code *code)
{
    unsigned width = machine.width > 0 && chance_part(chance, 1, 3) ? machine.width : SECOND_WIDTH;
    second_build_code(&requirements, machine.states, width, code);
}

static void draw_least(struct chance *chance, struct second_code *code)
{
    static struct second_machine small;
    static struct second_requirements asked;
    if (second_least_code(listing.bytes, listing.length, &small, &asked, code).number != SECOND_FINE)
        draw_own(chance, code);
}

static void turn(struct chance *chance, struct second_code *code)
{
    if (code->bits > 0 && chance_part(chance, 1, 3))
        add_column(code, code->bit[chance_below(chance, code->bits)]);
    for (unsigned at = code->bits; at > 1; at--) {
        unsigned other = chance_below(chance, at);
        uint64_t column = code->bit[at - 1];
        code->bit[at - 1] = code->bit[other];
        code->bit[other] = column;
    }
    for (unsigned at = 0; at < code->bits; at++)
        if (chance_part(chance, 1, 2))
            code->bit[at] = second_all_states(machine.states) & ~code->bit[at];
}

static void draw_one_hot(struct second_code *code)
{
    code->bits = 0;
    for (unsigned state = 0; state < machine.states; state++)
        add_column(code, (uint64_t)1 << state);
}

/* State s has the number s, or s times an odd number: different in the lowest digits that it takes. */
static void draw_counting(struct chance *chance, struct second_code *code)
{
    unsigned bits = 0;
    unsigned times = chance_part(chance, 1, 2) ? 1 : 1 + 2 * chance_below(chance, 32);
    while (1u << bits < machine.states)
        bits++;
    code->bits = 0;
    for (unsigned place = 0; place < bits; place++) {
        uint64_t column = 0;
        for (unsigned state = 0; state < machine.states; state++)
            column |= (uint64_t)(state * times >> (bits - 1 - place) & 1) << state;
        add_column(code, column);
    }
}

static void draw_code(struct chance *chance, enum check_codes family, struct second_code *code)
{
    unsigned more;
    code->bits = 0;
    switch (family) {
    case CHECK_OWN:
        draw_own(chance, code);
        break;
    case CHECK_LEAST:
        draw_least(chance, code);
        break;
    case CHECK_TURNED:
        draw_own(chance, code);
        turn(chance, code);
        break;
    case CHECK_ONE_HOT:
        draw_one_hot(code);
        break;
    case CHECK_COUNTING:
        draw_counting(chance, code);
        break;
    case CHECK_WIDER:
        draw_one_hot(code);
        for (more = chance_part(chance, 1, 2) ? SECOND_WIDTH : chance_below(chance, 8); more > 0; more--)
            add_column(code, any_column(chance));
        turn(chance, code);
        break;
    case CHECK_ANY:
        for (more = chance_from(chance, 1, chance_part(chance, 1, 6) ? SECOND_WIDTH : 10); more > 0; more--)
            add_column(code, any_column(chance));
        break;
    default: /* CHECK_NO_BITS */
        break;
    }
}

/* The bit rule takes the second encoder long where there are many states. */
static enum check_codes draw_codes(struct chance *chance)
{
    static const enum check_codes codes[] = {CHECK_OWN,     CHECK_OWN,      CHECK_OWN,   CHECK_LEAST, CHECK_TURNED, CHECK_TURNED, CHECK_ONE_HOT,
                                             CHECK_ONE_HOT, CHECK_COUNTING, CHECK_WIDER, CHECK_ANY,   CHECK_ANY};
    enum check_codes family = codes[chance_below(chance, LENGTH_OF(codes))];
    if (machine.states > 16 && !chance_part(chance, 1, 8) && (family == CHECK_OWN || family == CHECK_TURNED))
        family = CHECK_ONE_HOT;
    if (chance_part(chance, 1, machine.states == 1 ? 3 : 60))
        family = CHECK_NO_BITS;
    return family;
}

static void put(struct check_text *text, char byte)
{
    text->bytes[text->length++] = (uint8_t)byte;
}

static void put_word(struct check_text *text, const char *word)
{
    for (; *word != 0; word++)
        put(text, *word);
}

static void put_number(struct check_text *text, unsigned number)
{
    if (number >= 10)
        put_number(text, number / 10);
    put(text, (char)('0' + number % 10));
}

static char digit_of(const struct second_code *code, unsigned place, unsigned state)
{
    return code->bit[place] >> state & 1 ? '1' : '0';
}

static void write_codes(const struct second_code *code, struct check_text *text)
{
    text->length = 0;
    for (unsigned state = 0; state < machine.states; state++) {
        put_word(text, "SC ");
        put_number(text, state);
        put(text, ' ');
        if (code->bits == 0)
            put(text, '-');
        for (unsigned place = 0; place < code->bits; place++)
            put(text, digit_of(code, place, state));
        put(text, '\n');
    }
}

/* ---- covers ---- */

static const struct second_code *given_code;

static struct second_refusal give_code(const uint8_t *bytes, size_t length, struct second_machine *read,
                                       struct second_requirements *asked, struct second_code *code)
{
    struct second_refusal refusal = second_read_lines(bytes, length, read);
    second_draw_up(read, asked);
    *code = *given_code;
    return refusal;
}

/* The cover that our encoder writes in these codes. */
static void cover_of_rows(const struct second_code *code)
{
    static uint8_t text[SECOND_TEXT];
    static struct second_pla pla;
    given_code = code;
    int64_t length = second_cover_by(give_code, listing.bytes, listing.length, text, sizeof text);
    second_read_pla(text, (size_t)length, &pla);
    draft.rows = pla.rows;
    for (unsigned row = 0; row < pla.rows; row++) {
        memcpy(draft.input[row], pla.row[row].input, draft.inputs);
        memcpy(draft.output[row], pla.row[row].output, draft.outputs);
    }
}

static void put_state(const struct second_code *code, unsigned state, char *characters)
{
    for (unsigned place = 0; place < code->bits; place++)
        characters[place] = digit_of(code, place, state);
}

/* Each row of our cover once for each state that its code is in: no face, as an encoder without groups has it. */
static void cover_by_state(const struct second_code *code)
{
    static struct check_cover faces;
    cover_of_rows(code);
    faces = draft;
    draft.rows = 0;
    for (unsigned row = 0; row < faces.rows; row++) {
        for (unsigned state = 0; state < machine.states; state++) {
            bool inside = true;
            for (unsigned place = 0; place < code->bits; place++)
                inside = inside && (faces.input[row][machine.inputs + place] == '-' ||
                                    faces.input[row][machine.inputs + place] == digit_of(code, place, state));
            if (!inside || draft.rows == SECOND_PLA_ROWS)
                continue;
            memcpy(draft.input[draft.rows], faces.input[row], draft.inputs);
            memcpy(draft.output[draft.rows], faces.output[row], draft.outputs);
            put_state(code, state, draft.input[draft.rows] + machine.inputs);
            draft.rows++;
        }
    }
}

/* A row for each state and input, with anything where anything will do: as another encoder might have it. */
static void cover_by_input(struct chance *chance, const struct second_code *code)
{
    draft.rows = 0;
    for (unsigned state = 0; state < machine.states; state++) {
        for (unsigned input = 0; input < 1u << machine.inputs; input++) {
            char *characters = draft.input[draft.rows];
            for (unsigned place = 0; place < machine.inputs; place++)
                characters[place] = input >> (machine.inputs - 1 - place) & 1 ? '1' : '0';
            put_state(code, state, characters + machine.inputs);
            second_want(&machine, code, state, input, draft.output[draft.rows]);
            for (unsigned place = 0; place < draft.outputs; place++)
                if (draft.output[draft.rows][place] == '-')
                    draft.output[draft.rows][place] = "01-"[chance_below(chance, 3)];
            draft.rows++;
        }
    }
}

/* Answers whether it is ours. */
static bool draw_cover(struct chance *chance, const struct second_code *code)
{
    unsigned style = chance_below(chance, 10);
    memset(&draft, 0, sizeof draft);
    draft.inputs = machine.inputs + code->bits;
    draft.outputs = code->bits + machine.outputs;
    draft.typed = true;
    if (style == 0 && machine.inputs <= 8 && machine.states << machine.inputs <= SECOND_PLA_ROWS)
        cover_by_input(chance, code);
    else if (style == 1)
        cover_by_state(code);
    else
        cover_of_rows(code);
    return style > 1;
}

/* ---- rewriting: what is said stays ---- */

static void copy_row(unsigned to, unsigned from)
{
    memcpy(draft.input[to], draft.input[from], sizeof draft.input[to]);
    memcpy(draft.output[to], draft.output[from], sizeof draft.output[to]);
}

/* The row once more, somewhere behind. */
void check_double_row(struct chance *chance, struct check_cover *cover, unsigned row)
{
    unsigned to = cover->rows;
    unsigned place = chance_from(chance, row, cover->rows);
    for (; to > place; to--) {
        memcpy(cover->input[to], cover->input[to - 1], sizeof cover->input[to]);
        memcpy(cover->output[to], cover->output[to - 1], sizeof cover->output[to]);
    }
    if (to != row) {
        memcpy(cover->input[to], cover->input[row], sizeof cover->input[to]);
        memcpy(cover->output[to], cover->output[row], sizeof cover->output[to]);
    }
    cover->rows++;
}

static void swap_rows(struct chance *chance)
{
    unsigned one = chance_below(chance, draft.rows);
    unsigned other = chance_below(chance, draft.rows);
    copy_row(CHECK_DRAFT_ROWS - 1, one);
    copy_row(one, other);
    copy_row(other, CHECK_DRAFT_ROWS - 1);
}

/* A dash of the row's inputs or of its face: one row with 0, one with 1. */
static void split_row(struct chance *chance)
{
    unsigned row = chance_below(chance, draft.rows);
    unsigned first = chance_below(chance, draft.inputs);
    for (unsigned tries = 0; tries < draft.inputs; tries++) {
        unsigned place = (first + tries) % draft.inputs;
        if (draft.input[row][place] != '-')
            continue;
        copy_row(draft.rows, row);
        draft.input[row][place] = '0';
        draft.input[draft.rows][place] = '1';
        draft.rows++;
        return;
    }
}

/* The ones of the row's outputs in two rows. */
static void share_out(struct chance *chance)
{
    unsigned row = chance_below(chance, draft.rows);
    copy_row(draft.rows, row);
    for (unsigned place = 0; place < draft.outputs; place++)
        if (draft.output[row][place] == '1' && chance_part(chance, 1, 2))
            draft.output[chance_part(chance, 1, 2) ? row : draft.rows][place] = '0';
    draft.rows++;
}

/* A dash that our cover has in the outputs is free wherever the row fires. */
static void fill_dashes(struct chance *chance)
{
    for (unsigned row = 0; row < draft.rows; row++)
        for (unsigned place = 0; place < draft.outputs; place++)
            if (draft.output[row][place] == '-' && chance_part(chance, 1, 2))
                draft.output[row][place] = "01"[chance_below(chance, 2)];
}

/* A row of zeros, which says nothing. */
static void add_quiet(struct chance *chance)
{
    for (unsigned place = 0; place < draft.inputs; place++)
        draft.input[draft.rows][place] = "01-"[chance_below(chance, 3)];
    memset(draft.output[draft.rows], '0', sizeof draft.output[0]);
    draft.rows++;
}

static void rewrite(struct chance *chance)
{
    switch (chance_below(chance, 7)) {
    case 0:
        swap_rows(chance);
        break;
    case 1:
        check_double_row(chance, &draft, chance_below(chance, draft.rows));
        break;
    case 2:
    case 3:
        split_row(chance);
        break;
    case 4:
        share_out(chance);
        break;
    case 5:
        fill_dashes(chance);
        break;
    case 6:
        add_quiet(chance);
        break;
    }
}

/* Often none, a few, or up to all the rows that there may be. Answers whether there were any. */
static bool rewrite_some(struct chance *chance)
{
    unsigned times = chance_part(chance, 1, 2) ? 0 : chance_from(chance, 1, 6);
    bool full = chance_part(chance, 1, 60);
    bool any = times > 0 || full;
    if (draft.rows == 0)
        return false;
    for (; times > 0 && draft.rows < SECOND_PLA_ROWS; times--)
        rewrite(chance);
    while (full && draft.rows < SECOND_PLA_ROWS)
        rewrite(chance);
    return any;
}

/* ---- changing: what is said may be another ---- */

static char other_character(struct chance *chance, char character)
{
    char other = character;
    while (other == character)
        other = "01-"[chance_below(chance, 3)];
    return other;
}

/* A dash for a 1 that a row says, or beside it in another row; nothing where the place that is looked at says no 1. */
static void dash_a_one(struct chance *chance, unsigned row)
{
    unsigned first = chance_below(chance, draft.outputs);
    unsigned place = first;
    while (draft.output[row][place] != '1') {
        place = (place + 1) % draft.outputs;
        if (place == first)
            return;
    }
    if (draft.rows < SECOND_PLA_ROWS && chance_part(chance, 1, 2)) {
        copy_row(draft.rows, row);
        row = draft.rows++;
    }
    draft.output[row][place] = '-';
}

static void change_cover(struct chance *chance)
{
    unsigned row = draft.rows == 0 ? 0 : chance_below(chance, draft.rows);
    unsigned in = chance_below(chance, draft.inputs);
    unsigned out = chance_below(chance, draft.outputs);
    unsigned kind = draft.rows == 0 ? 6 : chance_below(chance, 7);
    if (kind < 2)
        draft.input[row][in] = other_character(chance, draft.input[row][in]);
    else if (kind < 4)
        draft.output[row][out] = other_character(chance, draft.output[row][out]);
    else if (kind == 4)
        copy_row(row, --draft.rows);
    else if (kind == 5)
        dash_a_one(chance, row);
    else if (draft.rows < SECOND_PLA_ROWS) {
        add_quiet(chance);
        draft.output[draft.rows - 1][out] = "1-"[chance_below(chance, 2)];
    }
}

static void change_code(struct chance *chance, struct second_code *code)
{
    if (code->bits > 0) {
        uint64_t state = (uint64_t)1 << chance_below(chance, machine.states);
        code->bit[chance_below(chance, code->bits)] ^= state;
    }
}

/* One to three changes, most often in the cover. A code that is changed before the cover is made has a cover that fits it. */
static void change_some(struct chance *chance, struct second_code *code)
{
    for (unsigned more = chance_from(chance, 1, 3); more > 0; more--) {
        if (chance_part(chance, 1, 5))
            change_code(chance, code);
        else
            change_cover(chance);
    }
}

/* ---- the texts ---- */

static void write_cover(struct check_text *text)
{
    text->length = 0;
    put_word(text, ".i ");
    put_number(text, draft.inputs);
    put_word(text, "\n.o ");
    put_number(text, draft.outputs);
    put_word(text, draft.typed ? "\n.type fd\n.p " : "\n.p ");
    put_number(text, draft.said);
    put(text, '\n');
    for (unsigned row = 0; row < draft.rows; row++) {
        for (unsigned place = 0; place < draft.inputs; place++)
            put(text, draft.input[row][place]);
        put(text, ' ');
        for (unsigned place = 0; place < draft.outputs; place++)
            put(text, draft.output[row][place]);
        put(text, '\n');
    }
    put_word(text, ".e\n");
}

static void draw_texts(struct chance *chance, bool changed, unsigned damage, struct generated_check *check)
{
    struct second_code code;
    check->family = draw_codes(chance);
    draw_code(chance, check->family, &code);
    if (changed && chance_part(chance, 1, 8))
        change_code(chance, &code);
    check->own_rows = draw_cover(chance, &code);
    check->own_rows = !rewrite_some(chance) && check->own_rows;
    draft.typed = !chance_part(chance, 1, 3);
    if (changed)
        change_some(chance, &code);
    check->own_rows = check->own_rows && !changed;
    draft.said = draft.rows;
    if (damage < CHECK_DAMAGES)
        check_damage_cover(chance, damage, &draft);
    write_codes(&code, &check->codes);
    write_cover(&check->cover);
}

const char *check_kind_name(unsigned kind)
{
    static const char *const families[CHECK_FAMILIES] = {"own", "least", "turned", "one-hot", "counting", "wider", "any", "no bits"};
    return kind < CHECK_FAMILIES ? families[kind] : check_damage_name(kind - CHECK_FAMILIES);
}

/* Of the spoilt ones half are damaged, a few of these in two ways, and half changed; those that are damaged may have changes too. */
void generate_check(uint64_t seed, uint64_t number, bool spoilt, struct generated_check *check)
{
    struct chance chance = chance_of(seed ^ 0xC4EC4, number);
    bool damaged = spoilt && chance_part(&chance, 1, 2);
    bool changed = spoilt && (!damaged || chance_part(&chance, 1, 4));
    unsigned damage = damaged ? check_draw_damage(&chance) : CHECK_DAMAGES;
    do {
        draw_listing(&chance);
    } while (!is_read());
    draw_texts(&chance, changed, damage, check);
    check->listing = listing;
    check->kind = check->family;
    if (!damaged)
        return;
    check->kind = CHECK_FAMILIES + damage;
    check_damage_texts(&chance, damage, check);
    if (chance_part(&chance, 1, 5))
        check_damage_texts(&chance, check_draw_damage(&chance), check);
}
