/*
 * The checker of traces: walks the records once, in order, and runs the step
 * on the block before each Step, in the layout (No. 11 of document 02) that the
 * Start opens.
 */
#include "records.h"
#include "second.h"
#include "words.h"

#include <string.h>

/* The trace: what the checker answers. */
struct report {
    enum number number;
    size_t place;
    uint32_t steps;
};

/* The trace: "two-byte length of the whole record, two-byte kind". */
bool second_is_due(const uint8_t *header, struct record due)
{
    return get_half(header) == due.length && get_half(header + 2) == due.kind;
}

/* No. 11: "Traces with the new block use Start kind 4"; any other kind there is kind 1, or none that is due. */
enum layout second_layout_of(const uint8_t *header)
{
    return get_half(header + 2) == START[NEW_LAYOUT].kind ? NEW_LAYOUT : OLD_LAYOUT;
}

/* The trace: whether the record due lies whole in the bytes left; else 8 or 9. */
static enum number find_record(const uint8_t *bytes, size_t left, struct record due)
{
    if (left < HEADER_SIZE)
        return SHORT;
    if (!second_is_due(bytes, due))
        return BAD_RECORD;
    if (left < due.length)
        return SHORT;
    return DONE;
}

/* No. 11: "Kinds 1 and 2 are still read, with HDCR 0": the word behind their 176 bytes. */
void second_take_block(enum layout layout, const uint8_t *bytes, uint8_t *block)
{
    memset(block, 0, BLOCK_SIZE);
    memcpy(block, bytes, BLOCK_LENGTH[layout]);
}

/* The trace: "what the rules give" is the answer, the value and the block after; the old layout cannot move HDCR. */
bool second_is_right_step(enum layout layout, const uint8_t *step, uint8_t *block)
{
    uint8_t answer[ANSWER_SIZE];

    second_step_in(layout, block, get_word(step + STEP_CODE), get_word(step + STEP_A), get_word(step + STEP_B), answer);
    return memcmp(step + STEP_ANSWER, answer, sizeof answer) == 0 &&
           memcmp(step + STEP_BLOCK, block, BLOCK_LENGTH[layout]) == 0;
}

/* No. 11: the layout of a trace; one without a whole header is SHORT in either. */
static enum layout layout_of(const uint8_t *trace, size_t length)
{
    return length < HEADER_SIZE ? OLD_LAYOUT : second_layout_of(trace);
}

/* The trace: "One Start, n Steps, one End", then nothing; No. 11: "A trace that mixes the two is BAD_RECORD". */
static struct report judge(const uint8_t *trace, size_t length)
{
    const enum layout layout = layout_of(trace, length);
    struct report report = { DONE, 0, 0 };
    uint8_t block[BLOCK_SIZE];
    uint32_t n;

    report.number = find_record(trace, length, START[layout]);
    if (report.number != DONE)
        return report;
    n = get_word(trace + START_COUNT);
    if (n > MOST_STEPS) {
        report.number = BAD_COUNT;
        return report;
    }
    second_take_block(layout, trace + START_BLOCK, block);
    report.place += START[layout].length;

    while (report.steps < n) {
        const uint8_t *step = trace + report.place;

        report.number = find_record(step, length - report.place, STEP[layout]);
        if (report.number == DONE && !second_is_right_step(layout, step, block))
            report.number = WRONG_STEP;
        if (report.number != DONE)
            return report;
        report.place += STEP[layout].length;
        report.steps++;
    }

    report.number = find_record(trace + report.place, length - report.place, END);
    if (report.number == DONE && get_word(trace + report.place + END_COUNT) != n)
        report.number = BAD_COUNT;
    if (report.number != DONE)
        return report;
    report.place += END.length;

    if (report.place < length)
        report.number = TRAILING;
    return report;
}

/* The trace: the number, the place, and the Steps found right before it. */
uint32_t second_check(const uint8_t *trace, size_t trace_len,
                      uint8_t *report, size_t report_len)
{
    struct report verdict;

    if (report_len != REPORT_SIZE)
        return BAD_SIZE;

    /* A place is at most the 13,369,336 bytes of the longest trace, which is a new one. */
    verdict = judge(trace, trace_len);
    put_word(report, verdict.number);
    put_word(report + 4, (uint32_t)verdict.place);
    put_word(report + 8, verdict.steps);
    return verdict.number;
}
