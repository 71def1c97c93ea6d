/*
 * The recorder of No. 7 of document 02: a step for each event of the list, one
 * after another from the start block, and each record written where the one
 * before it ends.  Nothing is written before it is known that all has room.
 * No. 11: it "writes new traces only".
 */
#include "records.h"
#include "second.h"
#include "words.h"

#include "pomurica.h"

#include <string.h>

/* The trace: "two-byte length of the whole record, two-byte kind". */
static void write_header(uint8_t *bytes, struct record record)
{
    put_half(bytes, record.length);
    put_half(bytes + 2, record.kind);
}

/* The trace: "step count n, block"; No. 11: "Start kind 4 (188 bytes)". */
static void write_start(uint8_t *start, uint32_t n, const uint8_t *block)
{
    write_header(start, START[NEW_LAYOUT]);
    put_word(start + START_COUNT, n);
    memcpy(start + START_BLOCK, block, BLOCK_SIZE);
}

/* The trace: "code, A, B, answer, value, block after", refused or not; No. 11: "Step kind 5 (204)"; moves the block. */
static void write_step(uint8_t *step, const struct pomurica_event *event, uint8_t *block)
{
    write_header(step, STEP[NEW_LAYOUT]);
    put_word(step + STEP_CODE, event->code);
    put_word(step + STEP_A, event->a);
    put_word(step + STEP_B, event->b);
    second_step(block, BLOCK_SIZE, event->code, event->a, event->b, step + STEP_ANSWER, ANSWER_SIZE);
    memcpy(step + STEP_BLOCK, block, BLOCK_SIZE);
}

/* The trace: "End (8, kind 3): n". */
static void write_end(uint8_t *end, uint32_t n)
{
    write_header(end, END);
    put_word(end + END_COUNT, n);
}

/* The trace: "One Start, n Steps, one End"; the steps are done on a copy, since the start block is only lent to be read. */
static void write_trace(uint8_t *trace, const uint8_t *start_block, const struct pomurica_event *events, uint32_t n)
{
    uint8_t *record = trace;
    uint8_t block[BLOCK_SIZE];

    memcpy(block, start_block, BLOCK_SIZE);
    write_start(record, n, block);
    record += START[NEW_LAYOUT].length;
    for (uint32_t i = 0; i < n; i++) {
        write_step(record, &events[i], block);
        record += STEP[NEW_LAYOUT].length;
    }
    write_end(record, n);
}

/* No. 11: "196 + 204n" bytes; of at most 65,535 events they are 13,369,336 at most. */
static size_t length_of_trace(size_t n)
{
    return START[NEW_LAYOUT].length + n * STEP[NEW_LAYOUT].length + END.length;
}

/* No. 7: not "past the buffer's end", and not "fewer" bytes "behind it"; by subtraction, since offset + length may wrap. */
static bool has_room(size_t buffer_len, size_t offset, size_t length)
{
    if (offset > buffer_len)
        return false;
    return buffer_len - offset >= length;
}

/* No. 7: "Checks in order"; "A refusal changes no byte."  No. 11: the recorder takes "180 bytes only". */
uint32_t second_record(const uint8_t *block, size_t block_len,
                       const struct pomurica_event *events, size_t events_len,
                       uint8_t *buffer, size_t buffer_len, size_t offset)
{
    if (block_len != BLOCK_SIZE)
        return BAD_SIZE;
    if (events_len > MOST_STEPS)
        return BAD_COUNT;
    if (!has_room(buffer_len, offset, length_of_trace(events_len)))
        return NO_ROOM;
    write_trace(buffer + offset, block, events, (uint32_t)events_len);
    return DONE;
}
