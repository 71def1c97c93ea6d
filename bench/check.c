/*
 * The checker, written for speed: one pass, one working copy of the answer and
 * the block, side by side as a Step has them, stepped in place and compared in
 * one go.  The step is compiled in, so that the compiler may do as it likes; and
 * so is the layout, of which each has a loop of its own.
 */
#include "step.c"

#include "same.h"

/* The trace (document 01, No. 11): where a record's words lie. */
enum {
    HEAD_SIZE = 4,
    COUNT = 1, START_BLOCK = 2,
    CODE = 1, STEP_ANSWER = 4
};

/* What the layouts differ in, for functions that are compiled for one of them. */
#define IN(old, name) ((old) ? POMURICA_OLD_##name : POMURICA_##name)
#define OUTCOME(old) ((old) ? OLD_OUTCOME_SIZE : OUTCOME_SIZE)

/* The layout that a trace goes by, of which the head is there. */
ALWAYS_INLINE bool is_old(const uint8_t *trace)
{
    return get(trace, 0) >> 16 != POMURICA_KIND_START;
}

/* The block of a record, into the one to be stepped: an old one has HDCR 0 behind it. */
ALWAYS_INLINE void take_block(bool old, const uint8_t *bytes, uint8_t *block)
{
    memcpy(block, bytes, IN(old, BLOCK_SIZE));
    if (old)
        put(block, POMURICA_PLACE_HDCR, 0);
}

/* Whether a Step is what comes of its event on the block of the outcome, which moves on. */
ALWAYS_INLINE bool is_right(bool old, const uint8_t *step, uint8_t *outcome)
{
    step_in(old, outcome + POMURICA_ANSWER_SIZE, get(step, CODE), get(step, CODE + 1), get(step, CODE + 2), outcome);
    return is_same(step + 4 * STEP_ANSWER, outcome, OUTCOME(old));
}

/* What is wrong with the head of the record due, of which left bytes are there. */
ALWAYS_INLINE uint32_t head_fault(const uint8_t *record, size_t left, uint32_t head, size_t size)
{
    if (__builtin_expect(left >= size && get(record, 0) == head, 1))
        return POMURICA_DONE;
    if (left < HEAD_SIZE)
        return POMURICA_SHORT;
    return get(record, 0) != head ? POMURICA_BAD_RECORD : POMURICA_SHORT;
}

/* The number of a trace of one layout, with place and Steps into the report. */
ALWAYS_INLINE uint32_t check_in(bool old, const uint8_t *trace, size_t trace_len, uint8_t *report)
{
    _Alignas(LANES) uint8_t outcome[OUTCOME_SIZE];
    const uint8_t *record = trace;
    const uint8_t *const end = trace + trace_len;
    uint32_t number, n = 0, steps = 0;

    number = head_fault(record, trace_len, IN(old, START_HEAD), IN(old, START_SIZE));
    if (number != POMURICA_DONE)
        goto told;
    n = get(record, COUNT);
    if (n > POMURICA_MOST_STEPS) {
        number = POMURICA_BAD_COUNT;
        goto told;
    }
    take_block(old, record + 4 * START_BLOCK, outcome + POMURICA_ANSWER_SIZE);
    record += IN(old, START_SIZE);
    for (; steps < n; steps++, record += IN(old, STEP_SIZE)) {
        number = head_fault(record, (size_t)(end - record), IN(old, STEP_HEAD), IN(old, STEP_SIZE));
        if (number != POMURICA_DONE)
            goto told;
        if (UNLIKELY(!is_right(old, record, outcome))) {
            number = POMURICA_WRONG_STEP;
            goto told;
        }
    }
    number = head_fault(record, (size_t)(end - record), POMURICA_END_HEAD, POMURICA_END_SIZE);
    if (number == POMURICA_DONE && get(record, COUNT) != n)
        number = POMURICA_BAD_COUNT;
    if (number != POMURICA_DONE)
        goto told;
    record += POMURICA_END_SIZE;
    if (record != end)
        number = POMURICA_TRAILING;
told:
    put(report, 0, number);
    put(report, 1, (uint32_t)(record - trace));
    put(report, 2, steps);
    return number;
}

uint32_t fast_check(const uint8_t *trace, size_t trace_len, uint8_t *report, size_t report_len)
{
    if (report_len != POMURICA_REPORT_SIZE)
        return POMURICA_BAD_SIZE;
    if (trace_len < HEAD_SIZE || is_old(trace))
        return check_in(true, trace, trace_len, report);
    return check_in(false, trace, trace_len, report);
}
