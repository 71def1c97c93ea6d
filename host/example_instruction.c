/*
 * An instruction word as an event, and one from its parts, as short as it comes.
 * Valid C11 and C++.
 */
#include "pomurica.h"

#include <stdio.h>

int main(void)
{
    /* A word of a log: MRS r2, R8_usr. */
    uint8_t parts[POMURICA_PARTS_SIZE];
    uint32_t number = pomurica_read_instruction(0xE1002200, parts, sizeof parts);
    const uint32_t code = pomurica_get_word(parts, POMURICA_PARTS_CODE);
    const uint32_t a = pomurica_get_word(parts, POMURICA_PARTS_A);
    const uint32_t reg = pomurica_get_word(parts, POMURICA_PARTS_REGISTER);
    printf("read: %s, code %u, A %u, condition %u, register %u\n", pomurica_number_name(number), (unsigned)code, (unsigned)a,
           (unsigned)pomurica_get_word(parts, POMURICA_PARTS_CONDITION), (unsigned)reg);

    /* Its event, on a core in FIQ mode, which reaches R8_usr by this instruction alone; B is in no word. */
    uint8_t block[POMURICA_BLOCK_SIZE] = { 0 }, answer[POMURICA_ANSWER_SIZE];
    pomurica_put_word(block, POMURICA_PLACE_CPSR, POMURICA_MODE_FIQ);
    pomurica_put_word(block, POMURICA_PLACE_R8_USR, 0x1234);
    number = pomurica_step(block, sizeof block, code, a, 0, answer, sizeof answer);
    printf("step: %s, value 0x%X\n", pomurica_number_name(number), (unsigned)pomurica_get_word(answer, POMURICA_ANSWER_VALUE));

    /* The word that puts it back: MSR R8_usr, r2, whatever the flags are. */
    uint8_t word[POMURICA_WORD_SIZE];
    number = pomurica_write_instruction(POMURICA_EVENT_BANKED_WRITE, a, POMURICA_MOST_CONDITION, reg, word, sizeof word);
    printf("write: %s, word 0x%08X\n", pomurica_number_name(number), (unsigned)pomurica_get_word(word, 0));
    return 0;
}
