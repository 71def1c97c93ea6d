/*
 * Reads and writes instruction words for a test that is not in C: a line of
 * standard output for each of standard input.
 *
 *     read WORD                          gives  NUMBER CODE A CONDITION REGISTER
 *     write CODE A CONDITION REGISTER    gives  NUMBER WORD
 *
 * A word is eight hexadecimal digits, all else is decimal.
 */
#include "pomurica.h"

#include <inttypes.h>
#include <stdio.h>

static void read_word(uint32_t word)
{
    uint8_t parts[POMURICA_PARTS_SIZE];
    const uint32_t number = pomurica_read_instruction(word, parts, sizeof parts);

    printf("%" PRIu32, number);
    for (size_t part = POMURICA_PARTS_CODE; part <= POMURICA_PARTS_REGISTER; part++)
        printf(" %" PRIu32, pomurica_get_word(parts, part));
    printf("\n");
}

static void write_word(uint32_t code, uint32_t a, uint32_t condition, uint32_t reg)
{
    uint8_t word[POMURICA_WORD_SIZE];
    const uint32_t number = pomurica_write_instruction(code, a, condition, reg, word, sizeof word);

    printf("%" PRIu32 " %08" PRIX32 "\n", number, pomurica_get_word(word, 0));
}

int main(void)
{
    char line[100];

    while (fgets(line, sizeof line, stdin) != NULL) {
        uint32_t word, code, a, condition, reg;

        if (sscanf(line, "read %" SCNx32, &word) == 1)
            read_word(word);
        else if (sscanf(line, "write %" SCNu32 " %" SCNu32 " %" SCNu32 " %" SCNu32, &code, &a, &condition, &reg) == 4)
            write_word(code, a, condition, reg);
        else
            return 2;
    }
    return ferror(stdin) || fflush(stdout) != 0 ? 2 : 0;
}
