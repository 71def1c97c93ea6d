/*
 * A step, a batch, a checker, a count, a session, a recorder and a reader and a
 * writer of instruction words that are always wrong, to see what a comparison
 * says of them.
 */
#include "pomurica.h"

#include <stddef.h>
#include <stdint.h>

/* No number of document 01. */
#define NO_NUMBER 99

uint32_t wrong_step(uint8_t *block, size_t block_len,
                    uint32_t code, uint32_t a, uint32_t b,
                    uint8_t *answer, size_t answer_len)
{
    (void)block, (void)block_len, (void)code, (void)a, (void)b, (void)answer, (void)answer_len;
    return NO_NUMBER;
}

uint32_t wrong_batch(const struct pomurica_event *events, size_t events_len,
                     struct pomurica_answer *answers, size_t answers_len,
                     uint8_t *block, size_t block_len)
{
    (void)events, (void)events_len, (void)answers, (void)answers_len, (void)block, (void)block_len;
    return NO_NUMBER;
}

uint32_t wrong_check(const uint8_t *trace, size_t trace_len,
                     uint8_t *report, size_t report_len)
{
    (void)trace, (void)trace_len, (void)report, (void)report_len;
    return NO_NUMBER;
}

uint32_t wrong_count(const uint8_t *trace, size_t trace_len,
                     uint8_t *counts, size_t counts_len)
{
    (void)trace, (void)trace_len, (void)counts, (void)counts_len;
    return NO_NUMBER;
}

uint32_t wrong_lines(const uint8_t *counts, size_t counts_len,
                     uint8_t *lines, size_t lines_len,
                     uint8_t *answer, size_t answer_len)
{
    (void)counts, (void)counts_len, (void)lines, (void)lines_len, (void)answer, (void)answer_len;
    return NO_NUMBER;
}

uint32_t wrong_open(struct pomurica_session *session)
{
    (void)session;
    return NO_NUMBER;
}

uint32_t wrong_feed(struct pomurica_session *session, const uint8_t *bytes, size_t bytes_len)
{
    (void)session, (void)bytes, (void)bytes_len;
    return NO_NUMBER;
}

uint32_t wrong_close(struct pomurica_session *session, uint8_t *report, size_t report_len)
{
    (void)session, (void)report, (void)report_len;
    return NO_NUMBER;
}

uint32_t wrong_record(const uint8_t *block, size_t block_len,
                      const struct pomurica_event *events, size_t events_len,
                      uint8_t *buffer, size_t buffer_len, size_t offset)
{
    (void)block, (void)block_len, (void)events, (void)events_len, (void)buffer, (void)buffer_len, (void)offset;
    return NO_NUMBER;
}

uint32_t wrong_read_instruction(uint32_t word, uint8_t *parts, size_t parts_len)
{
    (void)word, (void)parts, (void)parts_len;
    return NO_NUMBER;
}

uint32_t wrong_write_instruction(uint32_t code, uint32_t a, uint32_t condition, uint32_t reg,
                                 uint8_t *word, size_t word_len)
{
    (void)code, (void)a, (void)condition, (void)reg, (void)word, (void)word_len;
    return NO_NUMBER;
}
