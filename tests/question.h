/*
 * A random question to a step, and a call that answers it: what both sides of
 * a comparison are given, and what came of it.
 */
#ifndef QUESTION_H
#define QUESTION_H

#include "chance.h"
#include "lent.h"

#include <stdbool.h>
#include <stddef.h>
#include <stdint.h>

/* Bytes of a block or an answer that are at hand, for sizes that may be wrong. */
enum {
    ASKED_MOST = 256
};

struct question {
    uint8_t block[ASKED_MOST], answer[ASKED_MOST];
    size_t block_len, answer_len;
    struct event event;
};

/* One call of a step. */
struct call {
    struct lent block, answer;
    uint32_t number;
    bool guards_kept;
};

typedef uint32_t step_function(uint8_t *, size_t, uint32_t, uint32_t, uint32_t,
                               uint8_t *, size_t);

/* A random question; one in 64 with a size, or both, that may be wrong. */
void ask(struct chance *chance, struct question *question);

void call_step(step_function *step, const struct question *question, struct call *call);

/* What two calls on one question do not have alike, guard bytes included; NULL for nothing. */
const char *difference(const struct call *one, const struct call *other);

#endif
