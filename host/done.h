/*
 * How many Steps of a trace were done, by the answer numbers in their records;
 * the others were refused.  Nothing is judged here: it is asked only of Steps
 * that the checker found right.
 */
#ifndef DONE_H
#define DONE_H

#include <stddef.h>
#include <stdint.h>

struct layout;

/* The count of a trace that comes in pieces, by some of its words: the Start's head, and then the answer numbers. */
struct done {
    const struct layout *layout; /* by the head; NULL before it */
    uint32_t steps;              /* Steps whose answer number has come, and is DONE */
    size_t before;               /* bytes that come before the next one of such a word */
    uint32_t held;               /* how many bytes of the word have come */
    uint32_t word;               /* what they say of it */
};

void begin_done(struct done *done);

/* The next bytes of the trace, any number of them. */
void count_done_in(struct done *done, const uint8_t *bytes, size_t length);

/* The same of the first Steps of a trace that is there whole. */
uint32_t count_done(const uint8_t *trace, uint32_t steps);

#endif
