/* The second encoder's trial record: single moves over a requirement list, gains and looks worked out afresh. */
#include "second.h"

/* "A refused start hands back the empty record: no states, no requirements, no looks". */
static void make_empty(struct second_trial *trial)
{
    memset(trial, 0, sizeof *trial);
}

/* 11: "n not 1..32" (64 now: 02, request 09), "over 256 requirements, block lists of unlike length, a state or mask bit not
   below n, blocks that overlap". "a mask bit not below n" is said of the bit as well as of the blocks (reading 17). */
static bool is_good_start(uint64_t states, uint64_t bit, const uint64_t *firsts, size_t first_number,
                          const uint64_t *seconds, size_t second_number)
{
    if (states < 1 || states > SECOND_STATES)
        return false;
    if (first_number != second_number)
        return false;
    if (first_number > SECOND_TRIAL_REQUIREMENTS)
        return false;
    uint64_t beyond = ~second_all_states((unsigned)states);
    if (bit & beyond)
        return false;
    for (size_t r = 0; r < first_number; r++) {
        if ((firsts[r] & beyond) != 0 || (seconds[r] & beyond) != 0)
            return false;
        if ((firsts[r] & seconds[r]) != 0)
            return false;
    }
    return true;
}

/* "The trial record takes n, a bit and a requirement list of at most 256, all of them counted as live". */
unsigned second_trial_start(uint64_t states, uint64_t bit, const uint64_t *firsts, size_t first_number,
                            const uint64_t *seconds, size_t second_number, struct second_trial *trial)
{
    make_empty(trial);
    if (!is_good_start(states, bit, firsts, first_number, seconds, second_number))
        return SECOND_BAD_CALL;
    trial->states = (unsigned)states;
    trial->bit = bit;
    trial->number = (unsigned)first_number;
    for (size_t r = 0; r < first_number; r++) {
        trial->list[r].first = firsts[r];
        trial->list[r].second = seconds[r];
    }
    return SECOND_FINE;
}

/* 11: "a state ... not below n ... or a state already moved". "A refused move hands back the same trial record." */
unsigned second_trial_move(struct second_trial *trial, uint64_t state)
{
    if (state >= trial->states)
        return SECOND_BAD_CALL;
    if (trial->moved >> state & 1)
        return SECOND_BAD_CALL;
    for (unsigned r = 0; r < trial->number; r++)
        trial->looks += second_looks_at(trial->list[r], trial->bit, (unsigned)state);
    trial->bit ^= (uint64_t)1 << state;
    trial->moved |= (uint64_t)1 << state;
    return SECOND_FINE;
}

/* "shows each state's gain, moved states included" */
unsigned second_trial_gain(const struct second_trial *trial, uint64_t state, int64_t *gain)
{
    if (state >= trial->states)
        return SECOND_BAD_CALL;
    *gain = second_gain(trial->list, trial->number, trial->bit, (unsigned)state);
    return SECOND_FINE;
}

/* "and the looks so far" */
uint64_t second_trial_looks(const struct second_trial *trial)
{
    return trial->looks;
}
