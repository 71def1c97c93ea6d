#include "encoding.h"

#include "../second/second.h"
#include "../second/words.h"

#include <string.h>

/* Neither 0 nor a part. */
#define OLD_BYTE 0xC3

struct parts nth_parts(uint32_t i)
{
    return (struct parts){
        .code = CODE_BANKED_READ + i % ALL_CODES,
        .a = i / ALL_CODES % ALL_A,
        .condition = i / ALL_CODES / ALL_A % ALL_CONDITIONS,
        .reg = i / ALL_CODES / ALL_A / ALL_CONDITIONS,
    };
}

/* ------------------------------------------------------------ The calls */

static uint8_t *lend_old_bytes(struct encoded *encoded, size_t length, size_t shift)
{
    uint8_t bytes[LENT_MOST];

    memset(bytes, OLD_BYTE, length);
    return lend(&encoded->bytes, bytes, length, shift % (MOST_SHIFT + 1));
}

void call_read(read_function *read, uint32_t word, size_t parts_len, struct encoded *encoded)
{
    encoded->number = read(word, lend_old_bytes(encoded, parts_len, word >> 12), parts_len);
    encoded->guards_kept = take_back(&encoded->bytes);
}

void call_write(write_function *write, const struct parts *parts, size_t word_len, struct encoded *encoded)
{
    uint8_t *const word = lend_old_bytes(encoded, word_len, parts->a);

    encoded->number = write(parts->code, parts->a, parts->condition, parts->reg, word, word_len);
    encoded->guards_kept = take_back(&encoded->bytes);
}

const char *encoding_difference(const struct encoded *one, const struct encoded *other)
{
    if (one->number != other->number)
        return "the numbers differ";
    if (!are_same(&one->bytes, &other->bytes))
        return "the bytes differ";
    return one->guards_kept && other->guards_kept ? NULL : "a guard byte changed";
}

/* ----------------------------------------------------------- The chance */

static uint32_t any_bit(struct chance *chance)
{
    return UINT32_C(1) << any_below(chance, 32);
}

/* By second/: whichever way a comparison asks, most words are to be instructions, or nearly. */
static uint32_t any_instruction(struct chance *chance)
{
    const struct parts parts = nth_parts(any_below(chance, ALL_INSTRUCTIONS));
    uint8_t word[WORD_SIZE];

    second_write_instruction(parts.code, parts.a, parts.condition, parts.reg, word, sizeof word);
    return get_word(word);
}

/* The bits that an instruction has in a field of four, all 1: with that, a condition or a register is 15. */
static uint32_t any_fifteen(struct chance *chance)
{
    return UINT32_C(0xF) << 4 * any_below(chance, 8);
}

uint32_t any_instruction_word(struct chance *chance)
{
    const uint32_t word = any_instruction(chance);

    switch (any_below(chance, 8)) {
    case 0:
        return any_word(chance);
    case 1:
        return word ^ any_bit(chance) ^ any_bit(chance);
    case 2:
    case 3:
        return word ^ any_bit(chance);
    case 4:
        return word | any_fifteen(chance);
    default:
        return word;
    }
}

/* A part, or a number near to it. */
static uint32_t spoil(struct chance *chance, uint32_t part, uint32_t limit)
{
    switch (any_below(chance, 4)) {
    case 0:
        return limit + any_below(chance, 2);
    case 1:
        return part ^ any_bit(chance);
    case 2:
        return part - 1 - any_below(chance, 2);
    default:
        return any_word(chance);
    }
}

struct parts any_parts(struct chance *chance)
{
    struct parts parts = nth_parts(any_below(chance, ALL_INSTRUCTIONS));

    if (one_in(chance, 8))
        parts.code = spoil(chance, parts.code, CODE_BANKED_WRITE + 1);
    if (one_in(chance, 8))
        parts.a = spoil(chance, parts.a, ALL_A);
    if (one_in(chance, 8))
        parts.condition = spoil(chance, parts.condition, ALL_CONDITIONS);
    if (one_in(chance, 8))
        parts.reg = spoil(chance, parts.reg, ALL_REGISTERS);
    return parts;
}

size_t any_size(struct chance *chance, size_t size)
{
    return one_in(chance, 16) ? any_below(chance, 2 * (uint32_t)size + 1) : size;
}
