#include "recordings.h"

#include "edge.h"
#include "events.h"

#include <string.h>

enum {
    GUARD_BYTE = 0xA5,
    OLD_BYTES = 251 /* different bytes of a buffer before a call; no record's size is a multiple of it */
};

/* ------------------------------------------------------------ The buffer */

void open_recorded(struct recorded *recorded, size_t most)
{
    recorded->edge = open_room(GUARD_SIZE + most + GUARD_SIZE);
}

static uint8_t old_byte(size_t i)
{
    return (uint8_t)(1 + i % OLD_BYTES);
}

void put_old_bytes(uint8_t *buffer, size_t length)
{
    for (size_t i = 0; i < length; i++)
        buffer[i] = old_byte(i);
}

static uint8_t *lend_buffer(struct recorded *recorded, size_t length, size_t guards_behind)
{
    uint8_t *const buffer = recorded->edge - guards_behind - length;

    recorded->buffer = buffer;
    recorded->buffer_len = length;
    recorded->guards_behind = guards_behind;
    memset(buffer - GUARD_SIZE, GUARD_BYTE, GUARD_SIZE);
    memset(buffer + length, GUARD_BYTE, guards_behind);
    put_old_bytes(buffer, length);
    return buffer;
}

static bool are_guards(const uint8_t *bytes, size_t count)
{
    for (size_t i = 0; i < count; i++)
        if (bytes[i] != GUARD_BYTE)
            return false;
    return true;
}

static bool is_buffer_guarded(const struct recorded *recorded)
{
    return are_guards(recorded->buffer - GUARD_SIZE, GUARD_SIZE) &&
           are_guards(recorded->buffer + recorded->buffer_len, recorded->guards_behind);
}

bool is_nothing_written(const struct recorded *recorded)
{
    for (size_t i = 0; i < recorded->buffer_len; i++)
        if (recorded->buffer[i] != old_byte(i))
            return false;
    return true;
}

/* -------------------------------------------------------------- The call */

void call_record(record_function *record, const struct recording *asked, struct recorded *recorded)
{
    static struct lent block;
    const uint8_t *const lent = lend(&block, asked->block, asked->block_len, asked->offset % (MOST_SHIFT + 1));
    const struct pomurica_event *const events = lend_events(asked->events, asked->events_len);
    uint8_t *const buffer = lend_buffer(recorded, asked->buffer_len, asked->guards_behind);

    recorded->number = record(lent, asked->block_len, events, asked->events_len,
                              buffer, asked->buffer_len, asked->offset);
    recorded->guards_kept = take_back(&block) && is_unchanged(&block);
    recorded->guards_kept = recorded->guards_kept && are_events_kept() && is_buffer_guarded(recorded);
}

const char *record_difference(const struct recorded *one, const struct recorded *other)
{
    if (one->number != other->number)
        return "the numbers differ";
    if (memcmp(one->buffer, other->buffer, one->buffer_len) != 0)
        return "the buffers differ";
    return one->guards_kept && other->guards_kept ? NULL : "a guard byte, an event or the block changed";
}

/* ------------------------------------------------------------- The trace */

/* A Step of the event on the block, which moves on. */
static void write_step(step_function *step, const struct pomurica_event *event, uint8_t *block, uint8_t *record)
{
    pomurica_put_word(record, POMURICA_RECORD_HEAD, POMURICA_STEP_HEAD);
    pomurica_put_word(record, POMURICA_STEP_CODE, event->code);
    pomurica_put_word(record, POMURICA_STEP_A, event->a);
    pomurica_put_word(record, POMURICA_STEP_B, event->b);
    step(block, POMURICA_BLOCK_SIZE, event->code, event->a, event->b, record + sizeof(uint32_t) * POMURICA_STEP_NUMBER,
         POMURICA_ANSWER_SIZE);
    memcpy(record + sizeof(uint32_t) * POMURICA_STEP_BLOCK, block, POMURICA_BLOCK_SIZE);
}

void write_trace(step_function *step, const struct recording *asked, uint8_t *trace)
{
    uint8_t block[POMURICA_BLOCK_SIZE], *record = trace + POMURICA_START_SIZE;

    memcpy(block, asked->block, sizeof block);
    pomurica_put_word(trace, POMURICA_RECORD_HEAD, POMURICA_START_HEAD);
    pomurica_put_word(trace, POMURICA_RECORD_COUNT, (uint32_t)asked->events_len);
    memcpy(trace + sizeof(uint32_t) * POMURICA_START_BLOCK, block, sizeof block);
    for (size_t i = 0; i < asked->events_len; i++, record += POMURICA_STEP_SIZE)
        write_step(step, &asked->events[i], block, record);
    pomurica_put_word(record, POMURICA_RECORD_HEAD, POMURICA_END_HEAD);
    pomurica_put_word(record, POMURICA_RECORD_COUNT, (uint32_t)asked->events_len);
}
