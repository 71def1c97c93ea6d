/*
 * One step and one check, as short as they come.  Valid C11 and C++.
 */
#include "pomurica.h"

#include <stdio.h>

int main(void)
{
    /* A core in Non-secure Supervisor mode, at address 0x8000, with an IRQ waiting. */
    uint8_t block[POMURICA_BLOCK_SIZE] = { 0 }, answer[POMURICA_ANSWER_SIZE];
    pomurica_put_word(block, POMURICA_PLACE_CPSR, POMURICA_MODE_SUPERVISOR);
    pomurica_put_word(block, POMURICA_PLACE_SCR, POMURICA_SCR_NS);
    pomurica_put_word(block, POMURICA_PLACE_PC, 0x8000);

    uint32_t number = pomurica_step(block, sizeof block, POMURICA_EVENT_INTERRUPT_CHECK,
                                    POMURICA_LINE_IRQ, 0, answer, sizeof answer);
    printf("step: %s, value 0x%X, LR_irq 0x%X\n", pomurica_number_name(number),
           (unsigned)pomurica_get_word(answer, POMURICA_ANSWER_VALUE),
           (unsigned)pomurica_get_word(block, POMURICA_PLACE_LR_IRQ));

    /* The shortest trace: a Start with no Steps, and its End. */
    uint8_t trace[POMURICA_START_SIZE + POMURICA_END_SIZE] = { 0 };
    uint8_t report[POMURICA_REPORT_SIZE];
    pomurica_put_word(trace, 0, POMURICA_START_HEAD);
    pomurica_put_word(trace + POMURICA_START_SIZE, 0, POMURICA_END_HEAD);

    number = pomurica_check(trace, sizeof trace, report, sizeof report);
    printf("check: %s at byte %u after %u Steps\n", pomurica_number_name(number),
           (unsigned)pomurica_get_word(report, POMURICA_REPORT_PLACE),
           (unsigned)pomurica_get_word(report, POMURICA_REPORT_STEPS));
    return 0;
}
