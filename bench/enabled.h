/*
 * Calls enabled (No. 8): SCR with SCD 0 and HCE 1, so that where an SMC or an
 * HVC is to be taken, no disable bit of chance is in its way.
 */
#ifndef ENABLED_H
#define ENABLED_H

#include "../second/words.h"
#include "../tests/chance.h"

#include <stdint.h>

static inline uint32_t with_calls(uint32_t scr)
{
    return (scr & ~(uint32_t)SCR_SCD) | SCR_HCE;
}

/* On a block they are enabled. */
static inline void enable_calls(uint8_t *block)
{
    put_word(block + 4 * SCR, with_calls(get_word(block + 4 * SCR)));
}

/* After an event, a note on SCR perhaps, they still are. */
static inline void keep_calls(struct event *event)
{
    if (event->code == CODE_NOTE && event->a == SCR)
        event->b = with_calls(event->b);
}

#endif
