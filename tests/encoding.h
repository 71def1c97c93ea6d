/*
 * Instruction words and parts of chance, and the two calls about them: what
 * both sides of a comparison are given, and what came of it.
 */
#ifndef ENCODING_H
#define ENCODING_H

#include "chance.h"
#include "lent.h"

#include <stdbool.h>
#include <stddef.h>
#include <stdint.h>

typedef uint32_t read_function(uint32_t, uint8_t *, size_t);
typedef uint32_t write_function(uint32_t, uint32_t, uint32_t, uint32_t, uint8_t *, size_t);

/* No. 14: the parts of an instruction, and how many there are of each that are in their range; the codes are 10 and 11. */
struct parts {
    uint32_t code, a, condition, reg;
};
enum {
    ALL_CODES = 2,
    ALL_A = 64,
    ALL_CONDITIONS = 15,
    ALL_REGISTERS = 15,
    ALL_INSTRUCTIONS = ALL_CODES * ALL_A * ALL_CONDITIONS * ALL_REGISTERS
};

/* The parts of instruction i, below ALL_INSTRUCTIONS: each i has others. */
struct parts nth_parts(uint32_t i);

/* One call of either: the parts that it left, or the word. */
struct encoded {
    struct lent bytes;
    uint32_t number;
    bool guards_kept;
};

void call_read(read_function *read, uint32_t word, size_t parts_len, struct encoded *encoded);
void call_write(write_function *write, const struct parts *parts, size_t word_len, struct encoded *encoded);

/* What two calls do not have alike, guard bytes included; NULL for nothing. */
const char *encoding_difference(const struct encoded *one, const struct encoded *other);

/* A word that is an instruction, or differs from one in a bit or two, or by four bits that are 1, or is any. */
uint32_t any_instruction_word(struct chance *chance);

/* Parts that are mostly all in their ranges; one that is not is just above, has a bit that is too high, or is any number. */
struct parts any_parts(struct chance *chance);

/* The size; one time in 16 another, up to twice as large. */
size_t any_size(struct chance *chance, size_t size);

#endif
