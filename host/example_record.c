/*
 * A reference trace, recorded and judged, as short as it comes.  Valid C11 and C++.
 */
#include "pomurica.h"

#include <stdio.h>

int main(void)
{
    /* A core in Non-secure User mode, at address 0x8000. */
    uint8_t block[POMURICA_BLOCK_SIZE] = { 0 };
    pomurica_put_word(block, POMURICA_PLACE_CPSR, POMURICA_MODE_USER);
    pomurica_put_word(block, POMURICA_PLACE_SCR, POMURICA_SCR_NS);
    pomurica_put_word(block, POMURICA_PLACE_PC, 0x8000);

    /* User calls its kernel, and the kernel writes User's stack pointer. */
    const struct pomurica_event events[] = {
        { POMURICA_EVENT_SVC, 0, 0 },
        { POMURICA_EVENT_NOTE, POMURICA_PLACE_SP_USR, 0x20001000 },
    };
    const size_t count = sizeof events / sizeof events[0];

    /* The trace goes from the buffer's 16th byte on; what stands before it, and behind it, stays. */
    const size_t offset = 16;
    uint8_t buffer[1000];
    uint32_t number = pomurica_record(block, sizeof block, events, count, buffer, sizeof buffer, offset);
    printf("record: %s, %u bytes\n", pomurica_number_name(number), (unsigned)POMURICA_TRACE_SIZE(count));
    if (number != POMURICA_DONE)
        return 1;

    uint8_t report[POMURICA_REPORT_SIZE];
    number = pomurica_check(buffer + offset, POMURICA_TRACE_SIZE(count), report, sizeof report);
    printf("check: %s after %u Steps\n", pomurica_number_name(number),
           (unsigned)pomurica_get_word(report, POMURICA_REPORT_STEPS));
    return 0;
}
