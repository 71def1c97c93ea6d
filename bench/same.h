/*
 * Whether what a Step says came of its event, answer, value and block after,
 * is what came: 188 bytes, or 184 in the old layout, sixteen at a time, without
 * an early exit.  The C library's memcmp (BY_MEMCMP) is slower for so few, and
 * differs from processor to processor.
 */
#ifndef SAME_H
#define SAME_H

#include "pomurica.h"

#include <stdbool.h>
#include <string.h>

enum {
    OUTCOME_SIZE = POMURICA_ANSWER_SIZE + POMURICA_BLOCK_SIZE,
    OLD_OUTCOME_SIZE = POMURICA_ANSWER_SIZE + POMURICA_OLD_BLOCK_SIZE,
    LANES = 16
};

typedef uint64_t lanes __attribute__((vector_size(LANES)));

static inline lanes lanes_at(const uint8_t *bytes)
{
    lanes sixteen;

    memcpy(&sixteen, bytes, sizeof sixteen);
    return sixteen;
}

#ifdef BY_MEMCMP
static inline bool is_same(const uint8_t *recorded, const uint8_t *outcome, size_t size)
{
    return memcmp(recorded, outcome, size) == 0;
}
#else
/* The outcome lies at a multiple of sixteen, the record anywhere.  The size is known where this is compiled in. */
static inline __attribute__((always_inline)) bool is_same(const uint8_t *recorded, const uint8_t *outcome, size_t size)
{
    const uint8_t *aligned = __builtin_assume_aligned(outcome, LANES);
    const size_t last = size - LANES; /* the last sixteen overlap those before */
    lanes differing = lanes_at(recorded + last) ^ lanes_at(aligned + last);

    for (size_t i = 0; i + LANES <= size; i += LANES)
        differing |= lanes_at(recorded + i) ^ lanes_at(aligned + i);
    return (differing[0] | differing[1]) == 0;
}
#endif

#endif
