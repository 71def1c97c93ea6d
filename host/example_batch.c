/*
 * Many events in one call, as short as it comes.  Valid C11 and C++.
 */
#include "pomurica.h"

#include <stdio.h>

int main(void)
{
    /* A core in Non-secure Supervisor mode, at address 0x8000, that may call HVC. */
    uint8_t block[POMURICA_BLOCK_SIZE] = { 0 };
    pomurica_put_word(block, POMURICA_PLACE_CPSR, POMURICA_MODE_SUPERVISOR);
    pomurica_put_word(block, POMURICA_PLACE_SCR, POMURICA_SCR_NS | POMURICA_SCR_HCE);
    pomurica_put_word(block, POMURICA_PLACE_PC, 0x8000);

    /* An IRQ waits; code 14 is none, and is refused; the block goes on from where the IRQ led. */
    const struct pomurica_event events[] = {
        { POMURICA_EVENT_INTERRUPT_CHECK, POMURICA_LINE_IRQ, 0 },
        { 14, 0, 0 },
        { POMURICA_EVENT_HVC, 0, 0 },
    };
    const size_t count = sizeof events / sizeof events[0];
    struct pomurica_answer answers[sizeof events / sizeof events[0]];

    /* DONE whatever each event answers: BAD_SIZE alone says that nothing was done. */
    uint32_t number = pomurica_batch(events, count, answers, count, block, sizeof block);
    printf("batch: %s\n", pomurica_number_name(number));
    for (size_t i = 0; number == POMURICA_DONE && i < count; i++)
        printf("event %u: %s, value 0x%X\n", (unsigned)events[i].code, pomurica_number_name(answers[i].number),
               (unsigned)answers[i].value);
    printf("mode 0x%X\n", (unsigned)(pomurica_get_word(block, POMURICA_PLACE_CPSR) & POMURICA_CPSR_MODE));
    return 0;
}
