/* How much stack one call of an encoder takes. */
#ifndef STACK_DEPTH_H
#define STACK_DEPTH_H

#include "base.h"

typedef int64_t encoder(const uint8_t *listing, size_t listing_length, uint8_t *out, size_t out_length);

/* The bytes from the caller's stack to the deepest one that the call wrote. */
size_t stack_depth(encoder *call, const uint8_t *listing, size_t listing_length, uint8_t *out, size_t out_length);

#endif
