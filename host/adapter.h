/* Where the library's trial record is joined to the comparison: one record, started, moved and looked at. */
#ifndef ADAPTER_H
#define ADAPTER_H

#include "second.h"

/* What the record held shows. */
struct adapter_view {
    uint64_t states;
    uint64_t requirements;
    uint64_t bit;
    uint64_t moved;
    uint64_t looks;
    int64_t gain[SECOND_STATES]; /* of the states below the number of states */
};

/* These two answer 0 or the refusal's number; the record held afterwards is the one that was handed back. */
unsigned adapter_start(uint64_t states, uint64_t bit, const uint64_t *firsts, size_t first_number,
                       const uint64_t *seconds, size_t second_number);
unsigned adapter_move(uint64_t state);

/* `states` is how many gains are wanted. */
void adapter_view(uint64_t states, struct adapter_view *view);

#endif
