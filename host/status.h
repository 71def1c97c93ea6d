/*
 * The fields of a status word, CPSR or an SPSR, in words.  Like phrases.h's
 * they are made of the file's own letters and of numbers.
 */
#ifndef STATUS_H
#define STATUS_H

#include <stdbool.h>
#include <stdint.h>
#include <stdio.h>

/* Whether a part of a Step (enum pomurica_part) is a status word. */
bool is_status(uint32_t part);

/* The fields in which a word differs from another, which was or is due: "I clear, due set; mode IRQ, due Monitor". */
void tell_fields(FILE *out, uint32_t word, const char *due, uint32_t other);

#endif
