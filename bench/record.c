/*
 * The recorder, written for speed: each Step is stepped where it is written, on
 * a copy of the block of the record before it, which ends where the Step begins.
 * The step is compiled in, so that the compiler may do as it likes.  The copy is
 * sixteen bytes at a time, and HDCR; the C library's memcpy (BY_MEMCPY) is slower
 * for so few, and differs from processor to processor.
 */
#include "step.c"

#include "same.h"

#ifdef BY_MEMCPY
ALWAYS_INLINE void carry_block(uint8_t *to, const uint8_t *from)
{
    memcpy(to, from, POMURICA_BLOCK_SIZE);
}
#else
ALWAYS_INLINE void carry(uint8_t *to, const uint8_t *from, size_t part)
{
    const lanes sixteen = lanes_at(from + LANES * part);

    memcpy(to + LANES * part, &sixteen, LANES);
}

/* Part by part: of a loop over them the compiler makes a call of memcpy. */
ALWAYS_INLINE void carry_block(uint8_t *to, const uint8_t *from)
{
    _Static_assert(4 * POMURICA_PLACE_HDCR == 11 * LANES, "eleven parts, and a word");
    carry(to, from, 0);
    carry(to, from, 1);
    carry(to, from, 2);
    carry(to, from, 3);
    carry(to, from, 4);
    carry(to, from, 5);
    carry(to, from, 6);
    carry(to, from, 7);
    carry(to, from, 8);
    carry(to, from, 9);
    carry(to, from, 10);
    put(to, POMURICA_PLACE_HDCR, get(from, POMURICA_PLACE_HDCR));
}
#endif

ALWAYS_INLINE void record_step(uint8_t *step, const struct pomurica_event *event)
{
    uint8_t *const block = step + 4 * POMURICA_STEP_BLOCK;

    put(step, POMURICA_RECORD_HEAD, POMURICA_STEP_HEAD);
    put(step, POMURICA_STEP_CODE, event->code);
    put(step, POMURICA_STEP_A, event->a);
    put(step, POMURICA_STEP_B, event->b);
    carry_block(block, step - POMURICA_BLOCK_SIZE);
    step_in(false, block, event->code, event->a, event->b, step + 4 * POMURICA_STEP_NUMBER);
}

uint32_t fast_record(const uint8_t *block, size_t block_len, const struct pomurica_event *events, size_t events_len,
                     uint8_t *buffer, size_t buffer_len, size_t offset)
{
    const uint32_t n = (uint32_t)events_len;
    uint8_t *record;

    if (block_len != POMURICA_BLOCK_SIZE)
        return POMURICA_BAD_SIZE;
    if (events_len > POMURICA_MOST_STEPS)
        return POMURICA_BAD_COUNT;
    if (offset > buffer_len || buffer_len - offset < POMURICA_TRACE_SIZE(events_len))
        return POMURICA_NO_ROOM;
    record = buffer + offset;
    put(record, POMURICA_RECORD_HEAD, POMURICA_START_HEAD);
    put(record, POMURICA_RECORD_COUNT, n);
    memcpy(record + 4 * POMURICA_START_BLOCK, block, POMURICA_BLOCK_SIZE);
    record += POMURICA_START_SIZE;
    for (uint32_t i = 0; i < n; i++, record += POMURICA_STEP_SIZE)
        record_step(record, &events[i]);
    put(record, POMURICA_RECORD_HEAD, POMURICA_END_HEAD);
    put(record, POMURICA_RECORD_COUNT, n);
    return POMURICA_DONE;
}
