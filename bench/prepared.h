/*
 * What the counted programs share: cases prepared by chance, kept in a
 * file, so that the counted run does little but the calls; and timing.
 */
#ifndef PREPARED_H
#define PREPARED_H

#include "../tests/chance.h"
#include "pomurica.h"

#include <stdbool.h>
#include <stddef.h>
#include <stdint.h>

/* Steps of a run: as many of each code. */
#define STEPS 13000

/* The bytes of the trace that has them, and of one of the old layout. */
#define TRACE_SIZE (POMURICA_START_SIZE + STEPS * POMURICA_STEP_SIZE + POMURICA_END_SIZE)
#define OLD_TRACE_SIZE (POMURICA_OLD_START_SIZE + STEPS * POMURICA_OLD_STEP_SIZE + POMURICA_END_SIZE)

/* The block that is lent and an event on it. */
struct step_case {
    uint8_t block[POMURICA_BLOCK_SIZE];
    struct event event;
};

/* Nine steps in ten are to be done, in an order without a pattern. */
bool wants_done(struct chance *chance);

/* An event of the code on the block, which may or may not end as wanted. */
void choose_event(struct chance *chance, uint32_t code, bool wanted, struct step_case *step);

/* Whether the second implementation does the step, by the rules of a layout; after and answer take what it gives. */
bool is_done(bool old, const struct step_case *step, uint8_t *after, uint8_t *answer);

/* Whole files; each tells what goes wrong. */
bool write_file(const char *name, const void *bytes, size_t length);
bool read_file(const char *name, void *bytes, size_t length);

/* Nanoseconds a step of the quickest of many runs; prepare is not timed. */
double quickest(void (*prepare)(void), void (*run)(void));

#endif
