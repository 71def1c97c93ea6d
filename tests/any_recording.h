/* Recordings of chance. */
#ifndef ANY_RECORDING_H
#define ANY_RECORDING_H

#include "any_list.h"
#include "chance.h"
#include "recordings.h"

/* Bytes before and behind a trace, each at most; and of a buffer. */
enum {
    MOST_AROUND = 300,
    ANY_BUFFER = POMURICA_START_SIZE + LONG_LIST * POMURICA_STEP_SIZE + POMURICA_END_SIZE + 2 * MOST_AROUND
};

/*
 * A recording of a list as any_list has it, in a buffer in which the trace just fits, or about so, and now and then
 * from an offset that leads nowhere.  One time in 32 of about 65,535 events, without the room for them.  The events are
 * kept until the next is made.
 */
void any_recording(struct chance *chance, struct recording *asked);

/* So many events of chance, at most EVENTS_MOST, from a good block: with just the room for them behind the offset. */
void any_long_recording(struct chance *chance, size_t count, size_t offset, struct recording *asked);

#endif
