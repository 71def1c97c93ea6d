/*
 * The counts once more, to be held against second/: count by count, each from
 * the list of Steps, in sums of 64 bits, and the lines by the C library.
 * Whether the trace is accepted, the checker of bench/ says.
 */
#include "pomurica.h"
#include "record.h"

#include <inttypes.h>
#include <stdio.h>
#include <string.h>

uint32_t fast_check(const uint8_t *, size_t, uint8_t *, size_t);

/* Of a Step that has no number in a group. */
#define NONE POMURICA_GROUP_SIZE

static uint32_t by_code(const uint8_t *step)
{
    const uint32_t code = pomurica_get_word(step, POMURICA_STEP_CODE);

    return code > POMURICA_EVENT_RETURN ? 0 : code;
}

static uint32_t by_answer(const uint8_t *step)
{
    return pomurica_get_word(step, POMURICA_STEP_NUMBER);
}

static enum outcome outcome_of_step(const uint8_t *step)
{
    return outcome_of(pomurica_get_word(step, POMURICA_STEP_CODE), pomurica_get_word(step, POMURICA_STEP_NUMBER),
                      pomurica_get_word(step, POMURICA_STEP_VALUE));
}

/* The mode of the block that an entry left. */
static uint32_t by_target(const uint8_t *step)
{
    if (outcome_of_step(step) != OUTCOME_ENTRY)
        return NONE;
    return pomurica_get_word(block_after(step), POMURICA_PLACE_CPSR) & POMURICA_CPSR_MODE;
}

static uint32_t by_taken(const uint8_t *step)
{
    if (by_code(step) != POMURICA_EVENT_INTERRUPT_CHECK || by_answer(step) != POMURICA_DONE)
        return NONE;
    return pomurica_get_word(step, POMURICA_STEP_VALUE) >> 16;
}

/* A Step's number in each of the four groups. */
static uint32_t (*const NUMBER_BY[POMURICA_GROUPS])(const uint8_t *) = { by_code, by_answer, by_target, by_taken };

static uint32_t count_of(const uint8_t *trace, uint32_t steps, size_t word)
{
    uint32_t count = 0;

    for (uint32_t i = 0; i < steps; i++)
        count += NUMBER_BY[word / POMURICA_GROUP_SIZE](step_at(trace, i)) == word % POMURICA_GROUP_SIZE;
    return count;
}

uint32_t plain_count(const uint8_t *trace, size_t trace_len, uint8_t *counts, size_t counts_len)
{
    uint8_t report[POMURICA_REPORT_SIZE], sums[POMURICA_COUNTS_SIZE];
    uint32_t number;

    if (counts_len != sizeof sums)
        return POMURICA_BAD_SIZE;
    number = fast_check(trace, trace_len, report, sizeof report);
    if (number != POMURICA_DONE)
        return number;
    for (size_t word = 0; word < sizeof sums / 4; word++) {
        const uint64_t more = count_of(trace, pomurica_get_word(report, POMURICA_REPORT_STEPS), word);
        const uint64_t sum = pomurica_get_word(counts, word) + more;

        if (sum > UINT32_MAX)
            return POMURICA_FULL;
        pomurica_put_word(sums, word, (uint32_t)sum);
    }
    memcpy(counts, sums, sizeof sums);
    return POMURICA_DONE;
}

uint32_t plain_lines(const uint8_t *counts, size_t counts_len, uint8_t *lines, size_t lines_len,
                     uint8_t *answer, size_t answer_len)
{
    char text[POMURICA_LINES_SIZE + 1] = "";
    size_t length = 0;

    if (counts_len != POMURICA_COUNTS_SIZE || answer_len != POMURICA_ANSWER_SIZE)
        return POMURICA_BAD_SIZE;
    for (uint32_t group = 1; group <= POMURICA_GROUPS; group++)
        for (uint32_t number = 0; number < POMURICA_GROUP_SIZE; number++, counts += 4)
            if (pomurica_get_word(counts, 0) != 0)
                length += (size_t)snprintf(text + length, sizeof text - length, "%" PRIu32 " %" PRIu32 " %" PRIu32 "\n",
                                           group, number, pomurica_get_word(counts, 0));
    pomurica_put_word(answer, POMURICA_ANSWER_NUMBER, length <= lines_len ? POMURICA_DONE : POMURICA_NO_ROOM);
    pomurica_put_word(answer, POMURICA_ANSWER_VALUE, length <= lines_len ? (uint32_t)length : 0);
    if (length <= lines_len)
        memcpy(lines, text, length);
    return pomurica_get_word(answer, POMURICA_ANSWER_NUMBER);
}
