/* The stand-in's faults in flow tables (stand_in_flow.c). */
#ifndef STAND_IN_FLOW_H
#define STAND_IN_FLOW_H

#include "known.h"

/* The first of these faults. */
#define STAND_IN_FLOW 71

/* The answer of an entry, spoilt if STAND_IN_FAULT is one of these. */
int64_t stand_in_flow(entry *run, const uint8_t *listing, size_t length, uint8_t *out, size_t out_length);

#endif
