/*
 * Counts of chance, and the two calls about them: what both sides of a
 * comparison are given, and what came of it.
 */
#ifndef COUNTING_H
#define COUNTING_H

#include "chance.h"
#include "lent.h"
#include "traces.h"

#include <stdbool.h>
#include <stddef.h>
#include <stdint.h>

typedef uint32_t count_function(const uint8_t *, size_t, uint8_t *, size_t);
typedef uint32_t lines_function(const uint8_t *, size_t, uint8_t *, size_t, uint8_t *, size_t);

/* One call of a count. */
struct counted {
    struct lent counts;
    uint32_t number;
    bool guards_kept;
};

/* One call for the lines of counts, and the sizes of its buffers. */
struct listed {
    struct lent counts, lines, answer;
    uint32_t number;
    bool guards_kept;
};
struct sizes {
    size_t counts, lines, answer;
};

/* LENT_MOST bytes that begin with counts: none, any, some of them almost full, or all. */
void any_counts(struct chance *chance, uint8_t *counts);

/* A trace to count, of either layout and of at most MADE_SIZE bytes; gives its length. */
size_t any_counted_trace(struct chance *chance, uint8_t *trace, struct expected *expected);

/* The size of counts; one time in 64 any size, up to twice as large. */
size_t any_counts_size(struct chance *chance);

/* How room is made for lines: enough for any, just enough, a byte too few, and any room, with other sizes that may be wrong. */
enum room {
    ENOUGH, JUST_ENOUGH, TOO_LITTLE, ANY_ROOM,
    ROOMS
};

/* Sizes to ask for lines with that are so long. */
struct sizes any_sizes(struct chance *chance, enum room room, size_t length);

void call_count(count_function *count, const uint8_t *trace, size_t length,
                const uint8_t *counts, size_t counts_len, struct counted *counted);
void call_lines(lines_function *lines, const uint8_t *counts, struct sizes sizes, struct listed *listed);

/* What two calls do not have alike, guard bytes included; NULL for nothing. */
const char *count_difference(const struct counted *one, const struct counted *other);
const char *lines_difference(const struct listed *one, const struct listed *other);

#endif
