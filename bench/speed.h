/*
 * The step, the checker, the session and the recorder in plain C, written for
 * speed: the yardstick for the proved ones.  Same calls as host/pomurica.h, same
 * answers.
 */
#ifndef SPEED_H
#define SPEED_H

#include <stddef.h>
#include <stdint.h>

uint32_t fast_step(uint8_t *block, size_t block_len,
                   uint32_t code, uint32_t a, uint32_t b,
                   uint8_t *answer, size_t answer_len);

uint32_t fast_check(const uint8_t *trace, size_t trace_len,
                    uint8_t *report, size_t report_len);

/* The same with the C library's memcmp in place of a comparison of its own. */
uint32_t fast_check_by_memcmp(const uint8_t *trace, size_t trace_len,
                              uint8_t *report, size_t report_len);

struct pomurica_session;
uint32_t fast_open(struct pomurica_session *session);
uint32_t fast_feed(struct pomurica_session *session, const uint8_t *bytes, size_t bytes_len);
uint32_t fast_close(struct pomurica_session *session, uint8_t *report, size_t report_len);

struct pomurica_event;
uint32_t fast_record(const uint8_t *block, size_t block_len,
                     const struct pomurica_event *events, size_t events_len,
                     uint8_t *buffer, size_t buffer_len, size_t offset);

/* The same with the C library's memcpy in place of a copy of its own. */
uint32_t fast_record_by_memcpy(const uint8_t *block, size_t block_len,
                               const struct pomurica_event *events, size_t events_len,
                               uint8_t *buffer, size_t buffer_len, size_t offset);

#endif
