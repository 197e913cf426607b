/* What 02 says of flow tables, held against the second encoder's answers. */
#ifndef SELF_FLOW_H
#define SELF_FLOW_H

#include "base.h"

/* Whether the report, the cover and the widths of a flow table that is read are those of the same listing with its dichotomies as
   `DI` lines, worked out from the text; and whether the report's codes and its `BY` and `UN` lines say of each two destinations of a
   column whether a bit tells them apart. Counts the tables, those where nothing is unmet, and those where two destinations race. */
struct self_flow_counts {
    unsigned tables;
    unsigned all_met;
    unsigned races;
};
bool self_flow(const uint8_t *listing, size_t length, struct self_flow_counts *counts);

#endif
