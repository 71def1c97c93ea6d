/*
 * The instruction words of No. 14 of document 02: MRS (banked register) and MSR
 * (banked register), A32, each as its manual page draws it, field by field from
 * bit 31 down.  A word is read and written by the same table.
 */
#include "second.h"
#include "words.h"

#include <stdbool.h>

/* No. 14: the parts, in the order in which they lie in their 16 bytes. */
enum instruction_part {
    PART_CODE = 0,
    PART_A = 1,
    PART_CONDITION = 2,
    PART_REGISTER = 3,
    PARTS = 4
};

struct parts {
    uint32_t word[PARTS];
};
static const struct parts NO_PARTS = { { 0, 0, 0, 0 } };

/* No. 14: "A 0-63, condition 0-14 and register 0-14 (15 is CONSTRAINED UNPREDICTABLE)". */
enum largest {
    LARGEST_A = 63,
    LARGEST_CONDITION = 14,
    LARGEST_REGISTER = 14
};

/* No. 14: the fields that a page names; REG is Rd of MRS and Rn of MSR.  Of any other the page gives the bits. */
enum name {
    GIVEN = 0,
    COND,
    R,
    M1,
    REG,
    M
};

/* No. 14: a field, its highest and its lowest bit, and its name or the bits that it has to have. */
struct field {
    uint32_t high, low;
    enum name name;
    uint32_t given;
};

/* No. 14: an encoding, "into code 10 or 11". */
enum {
    FIELDS = 11
};
struct encoding {
    uint32_t code;
    struct field fields[FIELDS];
};

/* No. 14: both pages; a word that "breaks a should-be bit" is refused, so that (0) is as given as 0, and (1) as 1. */
static const struct encoding ENCODING[] = {
    { CODE_BANKED_READ, /* MRS */
      { { 31, 28, .name = COND },
        { 27, 23, .given = 0x02 }, /* 00010 */
        { 22, 22, .name = R },
        { 21, 20, .given = 0x0 }, /* 00 */
        { 19, 16, .name = M1 },
        { 15, 12, .name = REG },
        { 11, 10, .given = 0x0 }, /* (0)(0) */
        { 9, 9, .given = 0x1 },
        { 8, 8, .name = M },
        { 7, 4, .given = 0x0 }, /* 0000 */
        { 3, 0, .given = 0x0 } } }, /* (0)(0)(0)(0) */
    { CODE_BANKED_WRITE, /* MSR */
      { { 31, 28, .name = COND },
        { 27, 23, .given = 0x02 }, /* 00010 */
        { 22, 22, .name = R },
        { 21, 20, .given = 0x2 }, /* 10 */
        { 19, 16, .name = M1 },
        { 15, 12, .given = 0xF }, /* (1)(1)(1)(1) */
        { 11, 10, .given = 0x0 }, /* (0)(0) */
        { 9, 9, .given = 0x1 },
        { 8, 8, .name = M },
        { 7, 4, .given = 0x0 }, /* 0000 */
        { 3, 0, .name = REG } } },
};

#define ENCODINGS (sizeof ENCODING / sizeof ENCODING[0])

/* No. 14: the part that a named field is of, and the bit of it that the field begins at: A is R:SYSm, and SYSm is M:M1. */
static const struct {
    enum instruction_part part;
    uint32_t bit;
} PLACE[] = {
    [COND] = { PART_CONDITION, 0 },
    [R] = { PART_A, 5 },
    [M] = { PART_A, 4 },
    [M1] = { PART_A, 0 },
    [REG] = { PART_REGISTER, 0 },
};

/* ----------------------------------------------------------- The fields */

/* No. 14: as many of a number's lowest bits as the field has. */
static uint32_t cut_to(const struct field *field, uint32_t number)
{
    return number & ((1u << (field->high - field->low + 1)) - 1);
}

/* No. 14: what a word has in the field. */
static uint32_t field_of(const struct field *field, uint32_t word)
{
    return cut_to(field, word >> field->low);
}

/* No. 14: what the word of such parts has in it. */
static uint32_t field_due(const struct field *field, struct parts parts)
{
    if (field->name == GIVEN)
        return field->given;
    return cut_to(field, parts.word[PLACE[field->name].part] >> PLACE[field->name].bit);
}

/* ------------------------------------------------------------ The words */

/* No. 14: whether a word is of the encoding, and "breaks" no should-be bit. */
static bool has_given_bits(const struct encoding *encoding, uint32_t word)
{
    for (uint32_t i = 0; i < FIELDS; i++) {
        const struct field *field = &encoding->fields[i];

        if (field->name == GIVEN && field_of(field, word) != field->given)
            return false;
    }
    return true;
}

/* No. 14: the parts of a word that is of the encoding. */
static struct parts parts_of(const struct encoding *encoding, uint32_t word)
{
    struct parts parts = { { encoding->code, 0, 0, 0 } };

    for (uint32_t i = 0; i < FIELDS; i++) {
        const struct field *field = &encoding->fields[i];

        if (field->name != GIVEN)
            parts.word[PLACE[field->name].part] |= field_of(field, word) << PLACE[field->name].bit;
    }
    return parts;
}

/* No. 14: the word of the encoding that has these parts. */
static uint32_t word_of(const struct encoding *encoding, struct parts parts)
{
    uint32_t word = 0;

    for (uint32_t i = 0; i < FIELDS; i++)
        word |= field_due(&encoding->fields[i], parts) << encoding->fields[i].low;
    return word;
}

/* No. 14: whether these are parts of an instruction of the code; an A that no register has is like any other. */
static bool are_parts_of(uint32_t code, struct parts parts)
{
    return parts.word[PART_CODE] == code && parts.word[PART_A] <= LARGEST_A &&
           parts.word[PART_CONDITION] <= LARGEST_CONDITION && parts.word[PART_REGISTER] <= LARGEST_REGISTER;
}

/* No. 14: whether a word is of the encoding, and neither its condition nor its register is 15. */
static bool is_instruction(const struct encoding *encoding, uint32_t word)
{
    return has_given_bits(encoding, word) && are_parts_of(encoding->code, parts_of(encoding, word));
}

/* ------------------------------------------------------- Read and write */

/* No. 14: the parts as 16 bytes. */
static void put_parts(uint8_t *bytes, struct parts parts)
{
    for (uint32_t part = 0; part < PARTS; part++)
        put_word(bytes + 4 * part, parts.word[part]);
}

/* No. 14: "Read MRS (banked register) and MSR (banked register) A32 encodings"; "anything else is 18 [...], with the parts [...] 0". */
uint32_t second_read_instruction(uint32_t word, uint8_t *parts, size_t parts_len)
{
    if (parts_len != PARTS_SIZE)
        return BAD_SIZE;
    for (uint32_t i = 0; i < ENCODINGS; i++) {
        if (is_instruction(&ENCODING[i], word)) {
            put_parts(parts, parts_of(&ENCODING[i], word));
            return DONE;
        }
    }
    put_parts(parts, NO_PARTS);
    return NOT_BANKED;
}

/* No. 14: "and write the word from these"; "anything else is 18 both ways, with [...] the word 0". */
uint32_t second_write_instruction(uint32_t code, uint32_t a, uint32_t condition, uint32_t reg,
                                  uint8_t *word, size_t word_len)
{
    const struct parts parts = { { code, a, condition, reg } };

    if (word_len != WORD_SIZE)
        return BAD_SIZE;
    for (uint32_t i = 0; i < ENCODINGS; i++) {
        if (are_parts_of(ENCODING[i].code, parts)) {
            put_word(word, word_of(&ENCODING[i], parts));
            return DONE;
        }
    }
    put_word(word, 0);
    return NOT_BANKED;
}
