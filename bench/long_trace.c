#include "long_trace.h"

#include "enabled.h"

#include "../second/second.h"
#include "../second/words.h"
#include "../tests/chance.h"

#include <string.h>

uint8_t long_trace[POMURICA_LONGEST_TRACE];

/* A Step of an event on the block, which moves on. */
static void record_step(const struct event *event, uint8_t *block, uint8_t *step)
{
    pomurica_put_word(step, POMURICA_RECORD_HEAD, POMURICA_STEP_HEAD);
    pomurica_put_word(step, POMURICA_STEP_CODE, event->code);
    pomurica_put_word(step, POMURICA_STEP_A, event->a);
    pomurica_put_word(step, POMURICA_STEP_B, event->b);
    second_step(block, BLOCK_SIZE, event->code, event->a, event->b, step + 4 * POMURICA_STEP_NUMBER, ANSWER_SIZE);
    memcpy(step + 4 * POMURICA_STEP_BLOCK, block, BLOCK_SIZE);
}

size_t record_long_trace(uint32_t steps, bool right)
{
    struct chance chance = { .seed = 1 };
    uint8_t block[BLOCK_SIZE], *at = long_trace + POMURICA_START_SIZE;

    good_block(&chance, block);
    enable_calls(block);
    pomurica_put_word(long_trace, POMURICA_RECORD_HEAD, POMURICA_START_HEAD);
    pomurica_put_word(long_trace, POMURICA_RECORD_COUNT, steps);
    memcpy(long_trace + 4 * POMURICA_START_BLOCK, block, BLOCK_SIZE);
    for (uint32_t i = 0; i < steps; i++, at += POMURICA_STEP_SIZE) {
        struct event event = event_of(&chance, 1 + i % (CODES - 1), block);

        keep_calls(&event);
        record_step(&event, block, at);
    }
    if (!right)
        at[-1] ^= 1; /* the last byte of the last block */
    pomurica_put_word(at, POMURICA_RECORD_HEAD, POMURICA_END_HEAD);
    pomurica_put_word(at, POMURICA_RECORD_COUNT, steps);
    return (size_t)(at - long_trace) + POMURICA_END_SIZE;
}
