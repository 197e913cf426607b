/* The second encoder's coder: the requirements of a machine and the bits that meet them, every count made afresh. */
#include "second.h"

static uint64_t only(unsigned state)
{
    return (uint64_t)1 << state;
}

uint64_t second_all_states(unsigned states)
{
    uint64_t all = 0;
    for (unsigned state = 0; state < states; state++)
        all |= only(state);
    return all;
}

unsigned second_size(uint64_t set)
{
    return (unsigned)__builtin_popcountll(set);
}

static void ask(struct second_requirements *requirements, uint64_t first, uint64_t second)
{
    requirements->list[requirements->number].first = first;
    requirements->list[requirements->number].second = second;
    requirements->number++;
}

/* "hasn't stood in an earlier row": compared with every earlier row's group (reading 11). */
static bool stood_earlier(const struct second_machine *machine, unsigned row)
{
    for (unsigned earlier = 0; earlier < row; earlier++)
        if (machine->row[earlier].group == machine->row[row].group)
            return true;
    return false;
}

/* "Numbered from 0: pairs ({i},{j}), i < j, by i and then j; then, for each row in order whose group has 2 to n-1 states
   and hasn't stood in an earlier row, (group, {s}) for each state s outside, ascending; then each `DI`." */
void second_draw_up(const struct second_machine *machine, struct second_requirements *requirements)
{
    unsigned n = machine->states;
    requirements->number = 0;
    for (unsigned i = 0; i < n; i++)
        for (unsigned j = i + 1; j < n; j++)
            ask(requirements, only(i), only(j));
    for (unsigned row = 0; row < machine->rows; row++) {
        uint64_t group = machine->row[row].group;
        if (second_size(group) < 2 || second_size(group) > n - 1)
            continue;
        if (stood_earlier(machine, row))
            continue;
        for (unsigned s = 0; s < n; s++)
            if ((group & only(s)) == 0)
                ask(requirements, group, only(s));
    }
    requirements->pairs_groups = requirements->number;
    for (unsigned di = 0; di < machine->dichotomies; di++)
        ask(requirements, machine->dichotomy[di].first, machine->dichotomy[di].second);
}

/* The members "whose value must change for first block 0 and second block 1". */
static uint64_t wrong_for_0_1(struct second_requirement requirement, uint64_t bit)
{
    return (requirement.first & bit) | (requirement.second & ~bit);
}

/* "the other is for the reverse": first block 1 and second block 0. */
static uint64_t wrong_for_1_0(struct second_requirement requirement, uint64_t bit)
{
    return (requirement.first & ~bit) | (requirement.second & bit);
}

/* "A bit meets a requirement when it has one value on the whole first block and the other on the whole second. With an
   empty block only sameness on the other counts; two empty blocks are met by any bit." */
bool second_bit_meets(struct second_requirement requirement, uint64_t bit)
{
    return wrong_for_0_1(requirement, bit) == 0 || wrong_for_1_0(requirement, bit) == 0;
}

/* 02, request 04: "The judgement of one requirement against a code shall answer with the lowest bit number that meets it
   (from 0, leftmost first), or say that none does." */
int second_met_by(struct second_requirement requirement, const struct second_code *code)
{
    for (unsigned place = 0; place < code->bits; place++)
        if (second_bit_meets(requirement, code->bit[place]))
            return (int)place;
    return SECOND_NO_BIT;
}

/* "It is *near* when either is 0 or 1." */
bool second_near(struct second_requirement requirement, uint64_t bit)
{
    return second_size(wrong_for_0_1(requirement, bit)) <= 1 || second_size(wrong_for_1_0(requirement, bit)) <= 1;
}

/* "A move *looks* at a live requirement when the moved state is a member and the requirement is near before or after the
   move." The bit is the one before the move. */
bool second_looks_at(struct second_requirement requirement, uint64_t bit, unsigned state)
{
    bool is_member = ((requirement.first | requirement.second) & only(state)) != 0;
    return is_member && (second_near(requirement, bit) || second_near(requirement, bit ^ only(state)));
}

int64_t second_met_number(const struct second_requirement *live, unsigned number, uint64_t bit)
{
    int64_t met = 0;
    for (unsigned r = 0; r < number; r++)
        met += second_bit_meets(live[r], bit);
    return met;
}

/* "The gain of a state is live requirements met after flipping it, less those met now; it may be negative." A
   requirement that the state is no member of is met after as it is now, so it is passed over. */
int64_t second_gain(const struct second_requirement *live, unsigned number, uint64_t bit, unsigned state)
{
    int64_t gain = 0;
    for (unsigned r = 0; r < number; r++) {
        if (((live[r].first | live[r].second) & only(state)) == 0)
            continue;
        gain += second_bit_meets(live[r], bit ^ only(state));
        gain -= second_bit_meets(live[r], bit);
    }
    return gain;
}

/* The gains of all states. A requirement that is not near is met neither now nor after one flip, so it is passed over;
   what a near one adds to a gain is "met after the flip less met now". */
void second_gains(const struct second_requirement *live, unsigned number, uint64_t bit, int64_t gain[SECOND_STATES])
{
    memset(gain, 0, SECOND_STATES * sizeof gain[0]);
    for (unsigned r = 0; r < number; r++) {
        if (!second_near(live[r], bit))
            continue;
        bool met = second_bit_meets(live[r], bit);
        for (uint64_t left = live[r].first | live[r].second; left != 0; left &= left - 1) {
            unsigned state = (unsigned)__builtin_ctzll(left);
            gain[state] += second_bit_meets(live[r], bit ^ only(state)) - met;
        }
    }
}

/* "The free state with the greatest gain, lowest number on ties". */
static unsigned pick(const struct second_requirement *live, unsigned number, uint64_t bit, unsigned states,
                     uint64_t free)
{
    int64_t gain[SECOND_STATES];
    unsigned best = 0;
    bool found = false;
    second_gains(live, number, bit, gain);
    for (unsigned state = 0; state < states; state++) {
        if ((free & only(state)) == 0)
            continue;
        if (!found || gain[state] > gain[best]) {
            found = true;
            best = state;
        }
    }
    return best;
}

/* "A pass: every state is free. The free state ... is flipped and no longer free; again until none is free. ... Keep the
   shortest run of moves with the greatest number met." Answers the bit after that run, which is the bit given if no move
   stands. "Moves later taken back count too" for the looks. */
static uint64_t run_pass(const struct second_requirement *live, unsigned number, unsigned states, uint64_t bit,
                         uint64_t *looks)
{
    uint64_t free = second_all_states(states);
    uint64_t kept = bit;
    int64_t kept_met = second_met_number(live, number, bit);
    while (free != 0) {
        unsigned state = pick(live, number, bit, states, free);
        for (unsigned r = 0; r < number; r++)
            *looks += second_looks_at(live[r], bit, state);
        bit ^= only(state);
        free &= ~only(state);
        int64_t met = second_met_number(live, number, bit);
        if (met > kept_met) {
            kept = bit;
            kept_met = met;
        }
    }
    return kept;
}

/* "A bit starts as 1 on the second block of the lowest live requirement, 0 elsewhere." Passes follow: "If that exceeds
   the number at the pass's start, those moves stand and another pass begins; if not, no move stands and the bit is done."
   "Last, if state 0 has value 1, the whole bit is complemented." */
uint64_t second_build_bit(const struct second_requirement *live, unsigned number, unsigned states,
                          uint64_t *passes, uint64_t *looks)
{
    uint64_t bit = live[0].second;
    for (;;) {
        (*passes)++;
        uint64_t kept = run_pass(live, number, states, bit, looks);
        if (second_met_number(live, number, kept) <= second_met_number(live, number, bit))
            break;
        bit = kept;
    }
    if (bit & only(0))
        bit = second_all_states(states) & ~bit;
    return bit;
}

/* "Live requirements are those no earlier bit meets." */
static unsigned still_live(const struct second_requirements *requirements, const struct second_code *code,
                           struct second_requirement *live)
{
    unsigned number = 0;
    for (unsigned r = 0; r < requirements->number; r++)
        if (second_met_by(requirements->list[r], code) == SECOND_NO_BIT)
            live[number++] = requirements->list[r];
    return number;
}

/* "Width 0: go on until every requirement is met"; any other: "stop at that many bits." "With none live, no bit is added."
   "Width 0 now gives refusal 7 after 64 bits" (02, request 09). That a new bit meets something that was unmet is not asked
   here: 02 (request 06) has it shown, and self looks whether each bit does. */
struct second_refusal second_build_code(const struct second_requirements *requirements, unsigned states,
                                        unsigned width, struct second_code *code)
{
    static struct second_requirement live[SECOND_REQUIREMENTS];
    struct second_refusal fine = {SECOND_FINE, 0};
    struct second_refusal too_wide = {SECOND_TOO_WIDE, 0};
    unsigned most = width == 0 ? SECOND_WIDTH : width;
    code->bits = 0;
    code->passes = 0;
    code->looks = 0;
    for (;;) {
        unsigned number = still_live(requirements, code, live);
        if (number == 0)
            return fine;
        if (code->bits == most)
            return width == 0 ? too_wide : fine;
        code->bit[code->bits] = second_build_bit(live, number, states, &code->passes, &code->looks);
        code->bits++;
    }
}
