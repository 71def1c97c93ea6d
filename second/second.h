/*
 * A second implementation of document 01, and of No. 1, No. 2, No. 5, No. 6,
 * No. 7, No. 8, No. 9, No. 10, No. 11, No. 13 and No. 14 of document 02, written
 * from the papers alone, to be held against the proved one.  (No. 3 changes no
 * answer, and the table of No. 4 is printed by decisions.py.)  Each function
 * returns the number; none keeps anything between calls but what is in a session.
 * (NULL, 0) is an empty buffer, an empty list and an empty run.  No. 11: a block
 * has 180 bytes, and a trace may be of the old layout or of the new.
 */
#ifndef SECOND_H
#define SECOND_H

#include <stddef.h>
#include <stdint.h>

/* The rules that it goes by: document 01, in bits 15-8, and document 02 up to No. 14. */
#define SECOND_RULES (1u << 8 | 14u)

/* Answer numbers: a step on a block of 180 bytes, with an answer of 8 apart from it. */
uint32_t second_step(uint8_t *block, size_t block_len,
                     uint32_t code, uint32_t a, uint32_t b,
                     uint8_t *answer, size_t answer_len);

/* No. 2: a list of events, an answer for each, and one block; what lies in them is said in host/pomurica.h. */
struct pomurica_event;
struct pomurica_answer;
uint32_t second_batch(const struct pomurica_event *events, size_t events_len,
                      struct pomurica_answer *answers, size_t answers_len,
                      uint8_t *block, size_t block_len);

/* The trace: number, place and Steps into a report of 12 bytes; of another size it is BAD_SIZE. */
uint32_t second_check(const uint8_t *trace, size_t trace_len,
                      uint8_t *report, size_t report_len);

/* No. 6: the same of a trace that arrives in runs of bytes; what lies in a session is said in host/pomurica.h. */
struct pomurica_session;
uint32_t second_open(struct pomurica_session *session);
uint32_t second_feed(struct pomurica_session *session, const uint8_t *bytes, size_t bytes_len);
uint32_t second_close(struct pomurica_session *session, uint8_t *report, size_t report_len);

/* No. 7: the trace, a new one, of a list of events from a block, only read, into a buffer from the offset on. */
uint32_t second_record(const uint8_t *block, size_t block_len,
                       const struct pomurica_event *events, size_t events_len,
                       uint8_t *buffer, size_t buffer_len, size_t offset);

/* No. 1: what the Steps of an accepted trace add to counts of 512 bytes; any other number leaves them. */
uint32_t second_count(const uint8_t *trace, size_t trace_len,
                      uint8_t *counts, size_t counts_len);

/* No. 1: counts as lines of text; number and length of the text into an answer of 8 bytes. */
uint32_t second_count_lines(const uint8_t *counts, size_t counts_len,
                            uint8_t *lines, size_t lines_len,
                            uint8_t *answer, size_t answer_len);

/*
 * No. 14: an instruction word into parts of 16 bytes, code, A, condition and register; and a word of 4 bytes, little-endian,
 * from these.  Neither MRS nor MSR of a banked register, or parts of neither: NOT_BANKED, and the parts or the word are 0.
 */
uint32_t second_read_instruction(uint32_t word, uint8_t *parts, size_t parts_len);
uint32_t second_write_instruction(uint32_t code, uint32_t a, uint32_t condition, uint32_t reg,
                                  uint8_t *word, size_t word_len);

#endif
