/* The library's own trial record behind adapter.h. */
#include "adapter.h"
#include "tsurmokan.h"

static struct tsurmokan_trial held;

unsigned adapter_start(uint64_t states, uint64_t bit, const uint64_t *firsts, size_t first_number,
                       const uint64_t *seconds, size_t second_number)
{
    struct tsurmokan_started started = tsurmokan_start(states, bit, firsts, first_number, seconds, second_number);
    held = started.trial;
    return started.refusal;
}

unsigned adapter_move(uint64_t state)
{
    struct tsurmokan_state moved = { state };
    return tsurmokan_move(&held, moved);
}

void adapter_view(uint64_t states, struct adapter_view *view)
{
    view->states = held.states;
    view->requirements = held.count;
    view->bit = held.bit;
    view->moved = held.moved;
    view->looks = tsurmokan_looks(held);
    for (size_t number = 0; number < states; number++) {
        struct tsurmokan_state state = { number };
        view->gain[number] = tsurmokan_gain(held, state);
    }
}
