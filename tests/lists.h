/*
 * Lists of events to be done in one call, and that call: guard elements stand
 * before the events and around the answers, guard bytes around the block, and
 * behind the events nothing may even be read (events.h, which is opened first).
 */
#ifndef LISTS_H
#define LISTS_H

#include "lent.h"
#include "pomurica.h"

#include <stdbool.h>
#include <stddef.h>
#include <stdint.h>

enum {
    LONG_LIST = 1000,
    LIST_MOST = LONG_LIST + 1, /* elements of either list, at most */
    LIST_GUARDS = 8            /* guard elements on each side of the answers */
};

typedef uint32_t batch_function(const struct pomurica_event *, size_t, struct pomurica_answer *, size_t, uint8_t *, size_t);

/* What a batch is asked: its lists and its block, each of a length that may be wrong. */
struct list {
    struct pomurica_event events[LIST_MOST];
    uint8_t block[2 * POMURICA_BLOCK_SIZE];
    size_t events_len, answers_len, block_len;
};

/* One call of a batch. */
struct batched {
    struct pomurica_answer room[LIST_GUARDS + LIST_MOST + LIST_GUARDS];
    size_t answers_len;
    struct lent block;
    uint32_t number;
    bool guards_kept; /* and every event */
};

void call_batch(batch_function *batch, const struct list *list, struct batched *batched);

/* The answers, and the block's bytes, after the call. */
const struct pomurica_answer *answers_of(const struct batched *batched);
const uint8_t *block_of(const struct batched *batched);

/* Whether no answer and no byte of the block changed. */
bool is_untouched(const struct batched *batched);

/* What two calls on one list do not have alike, guards included; NULL for nothing. */
const char *batch_difference(const struct batched *one, const struct batched *other);

#endif
