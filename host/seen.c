/* What a run of the comparison has seen of output dashes, of rows that a cover leaves out or keeps, and of wrong head lines: the
   sorts of each, and how often a full run must see each sort. */
#include "seen.h"
#include "second.h"

/* A dash: kept; written 0 for a row before it and none behind it that says 1, and the other way round; kept beside a row that
   says 1 and shares only the inputs, or only a state.
   A row that says nothing: left out for want of a next state, for state 0 as the next one, or for want of bits; all rows left
   out; left out where the fifth number is 0; kept where it is 1.
   A row that says nothing but for one thing, and is kept for it: a dash, a dash that is written 0, an output 1, a next state.
   A head line whose four numbers are good: its fifth is nothing, begins with a needless 0, is no number otherwise, is above 1, or
   a sixth follows; or they are not all in range, and the fifth is no number. */
enum sort {
    DASH_KEPT,
    DASH_FOR_EARLIER,
    DASH_FOR_LATER,
    DASH_INPUTS_ALONE,
    DASH_STATES_ALONE,
    LEFT_NO_NEXT,
    LEFT_STATE_0,
    LEFT_NO_BITS,
    LEFT_ALL,
    LEFT_FIFTH_0,
    KEPT_FIFTH_1,
    KEPT_DASH,
    KEPT_DASH_AS_0,
    KEPT_OUTPUT,
    KEPT_NEXT,
    HEAD_EMPTY,
    HEAD_NEEDLESS_0,
    HEAD_NO_NUMBER,
    HEAD_ABOVE_1,
    HEAD_SIXTH,
    HEAD_1_BEFORE_2,
    SORTS
};

static struct seen_sort sorts[SORTS] = {
    [DASH_KEPT] = {"a dash kept", 20, 0},
    [DASH_FOR_EARLIER] = {"a dash 0 for earlier rows alone", 20, 0},
    [DASH_FOR_LATER] = {"a dash 0 for later rows alone", 20, 0},
    [DASH_INPUTS_ALONE] = {"a dash kept, inputs shared alone", 20, 0},
    [DASH_STATES_ALONE] = {"a dash kept, states shared alone", 20, 0},
    [LEFT_NO_NEXT] = {"a row left out, no next state", 100, 0},
    [LEFT_STATE_0] = {"a row left out, next state 0", 100, 0},
    [LEFT_NO_BITS] = {"a row left out, no bits", 100, 0},
    [LEFT_ALL] = {"all rows left out", 100, 0},
    [LEFT_FIFTH_0] = {"a row left out for a fifth number 0", 100, 0},
    [KEPT_FIFTH_1] = {"a row kept for a fifth number 1", 100, 0},
    [KEPT_DASH] = {"a row kept for a dash", 100, 0},
    [KEPT_DASH_AS_0] = {"a row kept for a dash written 0", 100, 0},
    [KEPT_OUTPUT] = {"a row kept for an output", 100, 0},
    [KEPT_NEXT] = {"a row kept for its next state", 100, 0},
    [HEAD_EMPTY] = {"1, an empty fifth field", 40, 0},
    [HEAD_NEEDLESS_0] = {"1, a fifth number with a needless 0", 40, 0},
    [HEAD_NO_NUMBER] = {"1, another fifth field that is no number", 40, 0},
    [HEAD_ABOVE_1] = {"2, a fifth number above 1", 40, 0},
    [HEAD_SIXTH] = {"1, a sixth field", 40, 0},
    [HEAD_1_BEFORE_2] = {"1 for the fifth, before 2 for another", 40, 0},
};

/* ---- the head line ---- */

static size_t head_length(const uint8_t *listing, size_t length)
{
    size_t at = 0;
    while (at < length && listing[at] != '\n')
        at++;
    return at;
}

/* Where the field of this number begins, the mark being 0; 0 if there is none. */
static size_t field_at(const uint8_t *line, size_t length, unsigned field)
{
    for (size_t at = 0; at < length; at++) {
        field -= line[at] == ' ';
        if (field == 0)
            return at + 1;
    }
    return 0;
}

/* ---- covers ---- */

/* Notes of which sorts a dash is, and answers whether the cover keeps it. */
static bool sort_dash(const struct second_machine *machine, unsigned row, unsigned place, bool sort[SORTS])
{
    bool earlier = false;
    bool later = false;
    bool inputs_alone = false;
    bool states_alone = false;
    for (unsigned other = 0; other < machine->rows; other++) {
        if (machine->row[other].outputs[place] != '1')
            continue;
        bool inputs = second_share_input(&machine->row[row], &machine->row[other], machine->inputs);
        bool states = second_share_state(&machine->row[row], &machine->row[other]);
        earlier = earlier || (inputs && states && other < row);
        later = later || (inputs && states && other > row);
        inputs_alone = inputs_alone || (inputs && !states);
        states_alone = states_alone || (states && !inputs);
    }
    bool kept = !earlier && !later;
    sort[DASH_KEPT] |= kept;
    sort[DASH_FOR_EARLIER] |= earlier && !later;
    sort[DASH_FOR_LATER] |= later && !earlier;
    sort[DASH_INPUTS_ALONE] |= kept && inputs_alone;
    sort[DASH_STATES_ALONE] |= kept && states_alone;
    return kept;
}

/* How many of a row's outputs are 1, dashes that are kept, and dashes that are written 0. */
struct said {
    unsigned ones;
    unsigned dashes;
    unsigned zeros;
};

static struct said sort_outputs(const struct second_machine *machine, unsigned row, bool sort[SORTS])
{
    struct said said = {0, 0, 0};
    for (unsigned place = 0; place < machine->outputs; place++) {
        said.ones += machine->row[row].outputs[place] == '1';
        if (machine->row[row].outputs[place] != '-')
            continue;
        if (sort_dash(machine, row, place, sort))
            said.dashes++;
        else
            said.zeros++;
    }
    return said;
}

/* Notes of which sorts a row is, and answers whether the cover leaves it out. Where there is a cover the codes differ, and state
   0's is all zeros, so that no other one's is. One state has no bits where no dichotomy asks for one. */
static bool sort_row(const struct second_machine *machine, unsigned row, bool sort[SORTS])
{
    struct said said = sort_outputs(machine, row, sort);
    int next = machine->row[row].next;
    bool no_bits = machine->states == 1 && machine->dichotomies == 0;
    bool next_zeros = next == SECOND_NO_STATE || next == 0;
    bool outputs_zeros = said.ones + said.dashes + said.zeros == 0;
    bool nothing = next_zeros && outputs_zeros;
    sort[KEPT_FIFTH_1] |= machine->keep == 1 && nothing;
    if (machine->keep == 1)
        return false;
    sort[LEFT_NO_NEXT] |= nothing && next == SECOND_NO_STATE;
    sort[LEFT_STATE_0] |= nothing && next == 0 && !no_bits;
    sort[LEFT_NO_BITS] |= nothing && no_bits;
    sort[KEPT_DASH] |= next_zeros && said.ones == 0 && said.dashes > 0;
    sort[KEPT_DASH_AS_0] |= next_zeros && said.ones + said.dashes == 0 && said.zeros > 0;
    sort[KEPT_OUTPUT] |= next_zeros && said.ones == 1 && said.dashes + said.zeros == 0;
    sort[KEPT_NEXT] |= !next_zeros && outputs_zeros;
    return nothing;
}

void seen_cover(const uint8_t *listing, size_t length)
{
    static struct second_machine machine;
    bool sort[SORTS] = {false};
    unsigned left_out = 0;
    second_read_lines(listing, length, &machine);
    if (machine.moore)
        return;
    for (unsigned row = 0; row < machine.rows; row++)
        left_out += sort_row(&machine, row, sort);
    sort[LEFT_ALL] = left_out > 0 && left_out == machine.rows;
    sort[LEFT_FIFTH_0] = left_out > 0 && field_at(listing, head_length(listing, length), 5) != 0;
    for (unsigned at = 0; at < SORTS; at++)
        sorts[at].seen += sort[at];
}

/* ---- head lines that are refused ---- */

/* Of a fifth field that is refused 1. */
static enum sort sort_fifth(const uint8_t *field, size_t length)
{
    if (length == 0)
        return HEAD_EMPTY;
    if (field[0] != '0')
        return HEAD_NO_NUMBER;
    for (size_t at = 1; at < length; at++)
        if (field[at] < '0' || field[at] > '9')
            return HEAD_NO_NUMBER;
    return HEAD_NEEDLESS_0;
}

/* What the four numbers alone would be answered tells whether the refusal is for what stands behind them. */
void seen_head(const uint8_t *listing, size_t length, int64_t answer)
{
    static struct second_machine machine;
    uint8_t four[64];
    size_t end = head_length(listing, length);
    size_t fifth = field_at(listing, end, 5);
    bool sixth = field_at(listing, end, 6) != 0;
    if (end == length || fifth == 0 || fifth > sizeof four || (answer != -100001 && answer != -200001))
        return;
    memcpy(four, listing, fifth);
    four[fifth - 1] = '\n';
    unsigned number = second_read_head(four, fifth, &machine).number;
    if (number == SECOND_FINE && answer == -200001)
        sorts[HEAD_ABOVE_1].seen++;
    if (number == SECOND_FINE && answer == -100001)
        sorts[sixth ? HEAD_SIXTH : sort_fifth(listing + fifth, end - fifth)].seen++;
    if (number == SECOND_LIMIT && answer == -100001 && !sixth)
        sorts[HEAD_1_BEFORE_2].seen++;
}

/* ---- the run ---- */

void seen_print_sorts(const char *what, const struct seen_sort *list, unsigned from, unsigned to)
{
    printf("%s", what);
    for (unsigned at = from; at < to; at++)
        printf(" %s: %llu;", list[at].name, (unsigned long long)list[at].seen);
    printf("\n");
}

bool seen_enough(const struct seen_sort *list, unsigned number)
{
    bool enough = true;
    for (unsigned at = 0; at < number; at++) {
        if (list[at].seen < list[at].least) {
            printf("FAILED: too few were seen, %s: %llu\n", list[at].name, (unsigned long long)list[at].seen);
            enough = false;
        }
    }
    return enough;
}

void seen_print(void)
{
    seen_print_sorts("covers with", sorts, DASH_KEPT, LEFT_NO_NEXT);
    seen_print_sorts("covers with", sorts, LEFT_NO_NEXT, HEAD_EMPTY);
    seen_print_sorts("head lines refused", sorts, HEAD_EMPTY, SORTS);
}

bool seen_each(void)
{
    return seen_enough(sorts, SORTS);
}
