#include "signals.h"

#include "group.h"
#include "pomurica.h"

#include <stdio.h>

enum signal signal_of(uint32_t code, uint32_t a, uint32_t number, uint32_t value)
{
    const bool has_line = (a & (POMURICA_LINE_VIRTUAL_FIQ | POMURICA_LINE_VIRTUAL_IRQ)) != 0;

    if (code != POMURICA_EVENT_INTERRUPT_CHECK)
        return NO_SIGNAL;
    if (has_line && number == POMURICA_BAD_EVENT)
        return LINE_REFUSED;
    if (number != POMURICA_DONE)
        return NO_SIGNAL;
    if (has_line)
        return LINE_DONE;
    if (value >> 16 == POMURICA_WHICH_VIRTUAL_FIQ)
        return TOOK_FIQ;
    return value >> 16 == POMURICA_WHICH_VIRTUAL_IRQ ? TOOK_IRQ : NO_SIGNAL;
}

static void show(const char *name, unsigned long times, unsigned long seldom)
{
    printf("  %-32s %9lu\n", name, times);
    check(times >= seldom, "%s: met %lu times, fewer than %lu", name, times, seldom);
}

void show_signals(const unsigned long *times, unsigned long seldom)
{
    show("BAD_EVENT: a virtual line", times[LINE_REFUSED], seldom);
    show("virtual FIQ by VF", times[TOOK_FIQ], seldom);
    show("virtual IRQ by VI", times[TOOK_IRQ], seldom);
    check(times[LINE_DONE] == 0, "a virtual line: done %lu times", times[LINE_DONE]);
}
