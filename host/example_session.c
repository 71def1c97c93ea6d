/*
 * A trace judged as it arrives, as short as it comes.  Valid C11 and C++.
 */
#include "pomurica.h"

#include <stdio.h>

int main(void)
{
    /* The shortest trace, as a slow line would bring it: in runs of seven bytes. */
    uint8_t trace[POMURICA_START_SIZE + POMURICA_END_SIZE] = { 0 };
    pomurica_put_word(trace, 0, POMURICA_START_HEAD);
    pomurica_put_word(trace + POMURICA_START_SIZE, 0, POMURICA_END_HEAD);

    /* A run may be forgotten once it is fed: the session has all that is needed of it. */
    struct pomurica_session session;
    uint32_t number = pomurica_open(&session);
    for (size_t fed = 0; fed < sizeof trace && number == 0; fed += 7)
        number = pomurica_feed(&session, trace + fed, sizeof trace - fed < 7 ? sizeof trace - fed : 7);
    printf("fed: %s\n", number == 0 ? "no fault is known" : pomurica_number_name(number));

    /* That the trace is whole is known only now. */
    uint8_t report[POMURICA_REPORT_SIZE];
    number = pomurica_close(&session, report, sizeof report);
    printf("closed: %s at byte %u after %u Steps\n", pomurica_number_name(number),
           (unsigned)pomurica_get_word(report, POMURICA_REPORT_PLACE),
           (unsigned)pomurica_get_word(report, POMURICA_REPORT_STEPS));
    number = pomurica_feed(&session, trace, sizeof trace);
    printf("fed again: %s\n", pomurica_number_name(number));
    return 0;
}
