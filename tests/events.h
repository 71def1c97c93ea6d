/*
 * A list of events lent to a call that only reads it: guard elements stand
 * before it, and behind it nothing may even be read (edge.h).
 */
#ifndef EVENTS_H
#define EVENTS_H

#include "pomurica.h"

#include <stdbool.h>
#include <stddef.h>

enum {
    EVENTS_MOST = POMURICA_MOST_STEPS + 4 /* events of a list, at most: more than a trace has Steps */
};

/* Opens the edge for lists of so many events, EVENTS_MOST at most. */
void open_events(size_t most);

/* Lends a copy of the events; that of the list before is gone. */
const struct pomurica_event *lend_events(const struct pomurica_event *events, size_t count);

/* Whether each event that was lent last, and each guard element, is as it was. */
bool are_events_kept(void);

#endif
