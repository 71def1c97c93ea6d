/*
 * A trace of three Steps that arrives, in one layout and in the other: the calls
 * of a session behind the header, checked for what holds of any, and what the
 * session holds after each byte.  Runs are lent at the edge of a page without
 * rights, session and report between guard bytes.
 */
#ifndef ARRIVING_H
#define ARRIVING_H

#include "sessions.h"
#include "traces.h"

enum {
    STEPS = 3,
    MOST_LENGTH = POMURICA_START_SIZE + STEPS * POMURICA_STEP_SIZE + POMURICA_END_SIZE,
    RECORDS = STEPS + 2
};

/* The layout of the trace that arrives.  Everything here goes by it. */
void arrive_in(bool old);
bool is_arriving_in_old(void);

/* How long the trace is, and where a record of it begins and ends; the End is the last. */
size_t trace_length(void);
uint32_t end_place(void);
uint32_t record_begin(uint32_t record);
uint32_t record_end(uint32_t record);

/* What a report says. */
struct verdict {
    uint32_t number, place, steps;
};

/* What the checker says of the whole. */
struct verdict verdict_of(const uint8_t *bytes, size_t length);

/* Lends a session of these words; the shift is any number, by which it lies here or there. */
void resume(struct fed *fed, const struct pomurica_session *words, size_t shift);

/* Opens a session that held rubbish: it is all 0. */
void begin(struct fed *fed, size_t shift);

/* The number that a run at the edge is given. */
uint32_t feed(struct fed *fed, const uint8_t *bytes, size_t length);

/* Closing gives these three, sets closed to 1 and nothing else. */
void expect_closing(struct fed *fed, const struct verdict *due);

/* No more calls: no guard byte of the session changed. */
void finish(struct fed *fed);

/* The record in which a byte lies, RECORDS for one behind the trace. */
uint32_t record_of(size_t byte);

/* What a session is after the first bytes of the trace; and what any session becomes when a fault is known. */
struct pomurica_session words_due(const uint8_t *trace, size_t length);
struct pomurica_session faulted(struct pomurica_session words, uint32_t number);

#endif
