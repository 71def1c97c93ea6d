/*
 * Recordings to be made, and the call that makes one.  Guard bytes stand before
 * the buffer; behind it begins a page without rights, or guard bytes stand there
 * too.  The events are lent as events.h has it (which is opened first), and the
 * block between guard bytes.
 */
#ifndef RECORDINGS_H
#define RECORDINGS_H

#include "lent.h"
#include "pomurica.h"
#include "question.h"

#include <stdbool.h>
#include <stddef.h>
#include <stdint.h>

typedef uint32_t record_function(const uint8_t *, size_t, const struct pomurica_event *, size_t,
                                 uint8_t *, size_t, size_t);

/* What a recorder is asked: any length, and the offset, may be wrong. */
struct recording {
    uint8_t block[2 * POMURICA_BLOCK_SIZE];
    const struct pomurica_event *events;
    size_t block_len, events_len, buffer_len, offset;
    size_t guards_behind; /* GUARD_SIZE at most; the page begins behind them */
};

/* One side's room for buffers, and what its last call left there. */
struct recorded {
    uint8_t *edge;
    const uint8_t *buffer;
    size_t buffer_len, guards_behind;
    uint32_t number;
    bool guards_kept; /* and every event, and the block */
};

/* Makes room for buffers of at most so many bytes. */
void open_recorded(struct recorded *recorded, size_t most);

void call_record(record_function *record, const struct recording *asked, struct recorded *recorded);

/* What a buffer holds before a call: no byte is 0, and moved bytes are seen. */
void put_old_bytes(uint8_t *buffer, size_t length);

/* Whether no byte of the buffer changed. */
bool is_nothing_written(const struct recorded *recorded);

/* Writes the trace that is due, by the step given: Start, Steps and End as document 01 has them. */
void write_trace(step_function *step, const struct recording *asked, uint8_t *trace);

/* What two calls on one recording do not have alike, guards included; NULL for nothing. */
const char *record_difference(const struct recorded *one, const struct recorded *other);

#endif
