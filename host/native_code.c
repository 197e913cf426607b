/* The native encoder's coder: live requirements by state, so that a move touches only those that have the moved state, and
   of their members only those that are still free. */
#include "native.h"

static uint32_t lowest(uint64_t set)
{
    return (uint32_t)__builtin_ctzll(set);
}

static bool few(uint64_t set)
{
    return (set & (set - 1)) == 0;
}

static void ask(struct native_code *code, uint64_t first, uint64_t second)
{
    struct native_card *card = &code->card[code->asked];
    card->all = first | second;
    card->second = second;
    code->unmet[code->asked] = (uint16_t)code->asked;
    code->asked++;
}

/* Pairs, then each new group of 2 to n - 1 states with each state outside, then the dichotomies. */
static void draw_up(const struct native_machine *machine, struct native_code *code)
{
    uint32_t n = machine->states;
    uint64_t everyone = native_all_states(n);
    code->asked = 0;
    for (uint32_t i = 0; i < n; i++)
        for (uint32_t j = i + 1; j < n; j++)
            ask(code, (uint64_t)1 << i, (uint64_t)1 << j);
    for (uint32_t row = 0; row < machine->rows; row++) {
        uint64_t group = machine->group[row];
        uint32_t stood = few(group);
        for (uint32_t earlier = 0; earlier < row; earlier++)
            stood |= machine->group[earlier] == group;
        if (stood)
            continue;
        for (uint64_t rest = everyone & ~group; rest != 0; rest &= rest - 1)
            ask(code, group, rest & -rest);
    }
    for (uint32_t at = 0; at < machine->dichotomies; at++)
        ask(code, machine->first[at], machine->second[at]);
    code->live = code->asked;
}

/* The cards of each state: counted, then laid one behind the other. */
static void sort_by_state(struct native_code *code)
{
    uint32_t *number = code->number;
    uint16_t *into[NATIVE_STATES];
    memset(number, 0, sizeof code->number);
    for (uint32_t at = 0; at < code->asked; at++)
        for (uint64_t rest = code->card[at].all; rest != 0; rest &= rest - 1)
            number[lowest(rest)]++;
    uint32_t sum = 0;
    for (uint32_t state = 0; state < code->states; state++) {
        code->start[state] = sum;
        into[state] = code->of + sum;
        sum += number[state];
    }
    for (uint32_t at = 0; at < code->asked; at++)
        for (uint64_t rest = code->card[at].all; rest != 0; rest &= rest - 1)
            *into[lowest(rest)]++ = (uint16_t)at;
}

/* The gains at the start of a pass: a met card of two members or more loses by each of them; one that is not met gains by
   the one member that must change, one way round or the other. */
static void fill(struct native_code *code, uint64_t bit, int32_t *gain)
{
    for (uint32_t state = 0; state < NATIVE_STATES; state++)
        gain[state] = 0;
    for (uint32_t at = 0; at < code->live; at++) {
        struct native_card *card = &code->card[code->unmet[at]];
        uint64_t all = card->all;
        uint64_t wrong = all & (bit ^ card->second);
        uint64_t right = all ^ wrong;
        card->wrong = wrong;
        if (wrong != 0 && right != 0) {
            if (few(wrong))
                gain[lowest(wrong)]++;
            if (few(right))
                gain[lowest(right)]++;
        } else if (!few(all)) {
            for (uint64_t rest = all; rest != 0; rest &= rest - 1)
                gain[lowest(rest)]--;
        }
    }
}

/* The move of one state. Let `from` be the side that the state leaves, without it, and `to` the side that it joins, before
   it does: the move looks where either has one member or none. Gains of states that are no longer free are left behind. */
static uint32_t move(struct native_code *code, uint32_t state, uint64_t free, int32_t *gain)
{
    uint64_t self = (uint64_t)1 << state;
    uint32_t looks = 0;
    const uint16_t *at = code->of + code->start[state];
    for (const uint16_t *end = at + code->number[state]; at < end; at++) {
        struct native_card *card = &code->card[*at];
        uint64_t wrong = card->wrong;
        uint64_t right = card->all ^ wrong;
        uint64_t to = wrong & self ? right : wrong;
        uint64_t from = card->all ^ to ^ self;
        card->wrong = wrong ^ self;
        if (!few(to) && !few(from))
            continue;
        looks++;
        if (to != 0 && from != 0) {
            if (few(to))
                gain[lowest(to)]--;
            if (few(from))
                gain[lowest(from)]++;
        } else if (from != 0) { /* it was met, and is no longer */
            for (uint64_t rest = from & free; rest != 0; rest &= rest - 1)
                gain[lowest(rest)]++;
            if (few(from))
                gain[lowest(from)]++;
        } else if (to != 0) { /* it is met now, and was not */
            for (uint64_t rest = to & free; rest != 0; rest &= rest - 1)
                gain[lowest(rest)]--;
            if (few(to))
                gain[lowest(to)]--;
        }
    }
    return looks;
}

/* A pass from *bit: the shortest run of moves with the greatest number met, if that is more than at the start. */
static bool run_pass(struct native_code *code, uint64_t *bit)
{
    int32_t gain[NATIVE_STATES];
    uint64_t now = *bit;
    int32_t level = 0;
    int32_t best = 0;
    fill(code, now, gain);
    for (uint64_t free = native_all_states(code->states); free != 0;) {
        uint32_t state = lowest(free);
        for (uint64_t rest = free & (free - 1); rest != 0; rest &= rest - 1)
            if (gain[lowest(rest)] > gain[state])
                state = lowest(rest);
        level += gain[state];
        free ^= (uint64_t)1 << state;
        code->looks += move(code, state, free, gain);
        now ^= (uint64_t)1 << state;
        if (level > best) {
            best = level;
            *bit = now;
        }
    }
    code->passes++;
    return best > 0;
}

/* Takes out the cards that the bit meets, of the list and of each state's; the others stay in order. */
static void sift(struct native_code *code, uint64_t bit)
{
    uint32_t kept = 0;
    for (uint32_t at = 0; at < code->live; at++) {
        struct native_card *card = &code->card[code->unmet[at]];
        uint64_t wrong = card->all & (bit ^ card->second);
        bool met = wrong == 0 || wrong == card->all;
        code->by[code->unmet[at]] = (uint8_t)code->bits;
        code->unmet[kept] = code->unmet[at];
        kept += !met;
        card->all = met ? 0 : card->all;
    }
    code->live = kept;
    for (uint32_t state = 0; state < code->states; state++) {
        uint16_t *of = code->of + code->start[state];
        uint32_t left = 0;
        for (uint32_t at = 0; at < code->number[state]; at++) {
            of[left] = of[at];
            left += code->card[of[at]].all != 0;
        }
        code->number[state] = left;
    }
}

int64_t native_encode(const struct native_machine *machine, struct native_code *code)
{
    uint32_t most = machine->width == 0 ? NATIVE_STATES : machine->width;
    code->states = machine->states;
    code->bits = 0;
    code->passes = 0;
    code->looks = 0;
    draw_up(machine, code);
    sort_by_state(code);
    while (code->live != 0 && code->bits < most) {
        uint64_t bit = code->card[code->unmet[0]].second;
        while (run_pass(code, &bit))
            continue;
        if (bit & 1)
            bit = ~bit & native_all_states(code->states);
        sift(code, bit);
        code->bit[code->bits++] = bit;
    }
    return machine->width == 0 && code->live != 0 ? 700000 : 0;
}
