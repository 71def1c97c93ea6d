#include "events.h"

#include "edge.h"

#include <stdint.h>
#include <string.h>

enum {
    GUARDS = 8,       /* guard elements */
    GUARD_BYTE = 0xA5 /* what they are made of */
};

/* The guard elements and the events behind them, and where they are lent. */
static struct pomurica_event guarded[GUARDS + EVENTS_MOST];
static size_t guarded_size;
static const struct pomurica_event *lent;

void open_events(size_t most)
{
    open_edge((GUARDS + most) * sizeof guarded[0]);
}

const struct pomurica_event *lend_events(const struct pomurica_event *events, size_t count)
{
    memset(guarded, GUARD_BYTE, GUARDS * sizeof guarded[0]);
    if (count != 0)
        memcpy(guarded + GUARDS, events, count * sizeof guarded[0]);
    guarded_size = (GUARDS + count) * sizeof guarded[0];
    lent = (const struct pomurica_event *)lend_at_edge((const uint8_t *)guarded, guarded_size);
    return lent + GUARDS;
}

bool are_events_kept(void)
{
    return memcmp(lent, guarded, guarded_size) == 0;
}
