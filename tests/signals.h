/*
 * What comes of interrupt checks, as far as they are of virtual interrupts
 * (No. 13): a virtual line is refused, and a bit of HCR brings one.  For those
 * who count what they meet among the events of a batch or of a recording.
 */
#ifndef SIGNALS_H
#define SIGNALS_H

#include <stdint.h>

enum signal {
    NO_SIGNAL,
    LINE_REFUSED, /* a check with a virtual line: BAD_EVENT */
    LINE_DONE,    /* which no direct step may answer */
    TOOK_FIQ, TOOK_IRQ,
    SIGNALS
};

/* Of an event and its answer. */
enum signal signal_of(uint32_t code, uint32_t a, uint32_t number, uint32_t value);

/* Prints how often each was met, and checks that this is not too seldom. */
void show_signals(const unsigned long *times, unsigned long seldom);

#endif
