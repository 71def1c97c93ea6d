/*
 * A buffer lent to a call, with guard bytes right before and right behind it,
 * so that a call is seen to touch nothing else.  Under the address sanitizer
 * the guard bytes behind it may not even be read.
 */
#ifndef LENT_H
#define LENT_H

#include <stdbool.h>
#include <stddef.h>
#include <stdint.h>

/* Guard bytes on each side, at least; the largest buffer lent this way: the lines of any counts, and somewhat more. */
enum {
    GUARD_SIZE = 64,
    MOST_SHIFT = 15,
    LENT_MOST = 2048 + 64
};

struct lent {
    uint8_t room[GUARD_SIZE + MOST_SHIFT + LENT_MOST + GUARD_SIZE];
    uint8_t before[LENT_MOST];
    size_t start, length;
};

/* Lends a copy of the bytes, moved up by shift bytes (0 to MOST_SHIFT), so that every alignment is met. */
uint8_t *lend(struct lent *lent, const uint8_t *bytes, size_t length, size_t shift);

/* Takes the buffer back: whether every guard byte is as it was.  Asked before the three below. */
bool take_back(struct lent *lent);

/* Whether the buffer itself still holds what was lent. */
bool is_unchanged(const struct lent *lent);

/* Whether two buffers of one length hold the same now. */
bool are_same(const struct lent *one, const struct lent *other);

/* The buffer's bytes now. */
const uint8_t *bytes_of(const struct lent *lent);

#endif
