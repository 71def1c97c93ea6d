/*
 * The C face of host/pomurica.h given by the second implementation, so that
 * what is written against the header also builds natively without the archive.
 */
#include "pomurica.h"
#include "records.h"
#include "second.h"

#include <string.h>

uint32_t pomurica_step(uint8_t *block, size_t block_len,
                       uint32_t code, uint32_t a, uint32_t b,
                       uint8_t *answer, size_t answer_len)
{
    return second_step(block, block_len, code, a, b, answer, answer_len);
}

uint32_t pomurica_batch(const struct pomurica_event *events, size_t events_len,
                        struct pomurica_answer *answers, size_t answers_len,
                        uint8_t *block, size_t block_len)
{
    return second_batch(events, events_len, answers, answers_len, block, block_len);
}

uint32_t pomurica_check(const uint8_t *trace, size_t trace_len,
                        uint8_t *report, size_t report_len)
{
    return second_check(trace, trace_len, report, report_len);
}

uint32_t pomurica_open(struct pomurica_session *session)
{
    return second_open(session);
}

uint32_t pomurica_feed(struct pomurica_session *session,
                       const uint8_t *bytes, size_t bytes_len)
{
    return second_feed(session, bytes, bytes_len);
}

uint32_t pomurica_close(struct pomurica_session *session,
                        uint8_t *report, size_t report_len)
{
    return second_close(session, report, report_len);
}

uint32_t pomurica_record(const uint8_t *block, size_t block_len,
                         const struct pomurica_event *events, size_t events_len,
                         uint8_t *buffer, size_t buffer_len, size_t offset)
{
    return second_record(block, block_len, events, events_len, buffer, buffer_len, offset);
}

/* Where the words of a Step lie: its event, and the parts that the rules decide. */
enum {
    CODE = 1, A = 2, B = 3, FIRST_PART = 4
};

/* The first part of a wrong Step that differs, into words 3 to 5 of the explanation; the block before it ends there. */
static void explain_step(enum layout layout, const uint8_t *step, uint8_t *explanation)
{
    uint8_t due[POMURICA_ANSWER_SIZE + POMURICA_BLOCK_SIZE];
    uint32_t part = 0;

    second_take_block(layout, step - BLOCK_LENGTH[layout], due + POMURICA_ANSWER_SIZE);
    second_step_in(layout, due + POMURICA_ANSWER_SIZE, pomurica_get_word(step, CODE), pomurica_get_word(step, A),
                   pomurica_get_word(step, B), due);
    while (pomurica_get_word(step, FIRST_PART + part) == pomurica_get_word(due, part))
        part++;
    pomurica_put_word(explanation, 3, POMURICA_PART_NUMBER + part);
    pomurica_put_word(explanation, 4, pomurica_get_word(step, FIRST_PART + part));
    pomurica_put_word(explanation, 5, pomurica_get_word(due, part));
}

uint32_t pomurica_explain(const uint8_t *trace, size_t trace_len,
                          uint8_t *explanation, size_t explanation_len)
{
    uint32_t number;

    if (explanation_len != POMURICA_EXPLANATION_SIZE)
        return POMURICA_BAD_SIZE;
    memset(explanation, 0, POMURICA_EXPLANATION_SIZE);
    number = second_check(trace, trace_len, explanation, POMURICA_REPORT_SIZE);
    if (number == POMURICA_WRONG_STEP)
        explain_step(second_layout_of(trace), trace + pomurica_get_word(explanation, 1), explanation);
    return number;
}

uint32_t pomurica_count(const uint8_t *trace, size_t trace_len,
                        uint8_t *counts, size_t counts_len)
{
    return second_count(trace, trace_len, counts, counts_len);
}

uint32_t pomurica_count_lines(const uint8_t *counts, size_t counts_len,
                              uint8_t *lines, size_t lines_len,
                              uint8_t *answer, size_t answer_len)
{
    return second_count_lines(counts, counts_len, lines, lines_len, answer, answer_len);
}

uint32_t pomurica_read_instruction(uint32_t word, uint8_t *parts, size_t parts_len)
{
    return second_read_instruction(word, parts, parts_len);
}

uint32_t pomurica_write_instruction(uint32_t code, uint32_t a, uint32_t condition, uint32_t reg,
                                    uint8_t *word, size_t word_len)
{
    return second_write_instruction(code, a, condition, reg, word, word_len);
}

/* Which release of these rules it is, the papers do not say. */
uint32_t pomurica_edition(void)
{
    return SECOND_RULES << 8 | (POMURICA_EDITION & 0xFF);
}
