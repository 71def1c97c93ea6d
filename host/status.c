/* The fields of a status word: see status.h. */
#include "status.h"

#include "phrases.h"
#include "pomurica.h"

#include <inttypes.h>
#include <stddef.h>

/* IT lies in two pieces. */
#define IT (POMURICA_CPSR_IT_7_2 | POMURICA_CPSR_IT_1_0)

/* From the highest bit, by Arm's names.  Bits 24-21, which must be 0 in CPSR, have none. */
static const struct field {
    const char *name;
    uint32_t bits;
} FIELDS[] = {
    { "N", POMURICA_CPSR_N },
    { "Z", POMURICA_CPSR_Z },
    { "C", POMURICA_CPSR_C },
    { "V", POMURICA_CPSR_V },
    { "Q", POMURICA_CPSR_Q },
    { "IT", IT },
    { "bits 24-21", POMURICA_CPSR_BITS_24_21 },
    { "IL", POMURICA_CPSR_IL },
    { "GE", POMURICA_CPSR_GE },
    { "E", POMURICA_CPSR_E },
    { "A", POMURICA_CPSR_A },
    { "I", POMURICA_CPSR_I },
    { "F", POMURICA_CPSR_F },
    { "T", POMURICA_CPSR_T },
    { "mode", POMURICA_CPSR_MODE },
};

#define COUNT_OF(array) (sizeof(array) / sizeof *(array))

bool is_status(uint32_t part)
{
    const uint32_t place = part - POMURICA_PART_BLOCK; /* above every place where the part is none of the block's */

    return place >= POMURICA_PLACE_SPSR_FIQ && place <= POMURICA_PLACE_CPSR;
}

/* What a field holds, as a number: IT[1:0] from bits 26-25 of the word, IT[7:2] from bits 15-10. */
static uint32_t value_of(uint32_t bits, uint32_t word)
{
    if (bits == IT)
        return (word & POMURICA_CPSR_IT_1_0) >> 25 | (word & POMURICA_CPSR_IT_7_2) >> 8;
    return (word & bits) / (bits & (~bits + 1));
}

static void tell_value(FILE *out, uint32_t bits, uint32_t word)
{
    const uint32_t value = value_of(bits, word);

    if ((bits & (bits - 1)) == 0)
        fputs(value ? "set" : "clear", out);
    else if (bits == POMURICA_CPSR_MODE && mode_name(value) != NULL)
        fputs(mode_name(value), out);
    else
        fprintf(out, "0x%02" PRIX32, value);
}

void tell_fields(FILE *out, uint32_t word, const char *due, uint32_t other)
{
    const char *before = "";

    for (size_t i = 0; i < COUNT_OF(FIELDS); i++) {
        const uint32_t bits = FIELDS[i].bits;

        if ((word & bits) == (other & bits))
            continue;
        fprintf(out, "%s%s ", before, FIELDS[i].name);
        tell_value(out, bits, word);
        fprintf(out, ", %s ", due);
        tell_value(out, bits, other);
        before = "; ";
    }
}
