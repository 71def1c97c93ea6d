/* A trace as it arrives: see arrival.h. */
#include "arrival.h"

void begin_arrival(struct arrival *arrival)
{
    *arrival = (struct arrival){ .fault = POMURICA_DONE };
    pomurica_open(&arrival->session);
    begin_done(&arrival->done);
}

/*
 * With how many of the bytes the fault is known that is known with all of them.
 * Found by halves, from the session as it was before them: a feeding returns
 * the fault's number from that byte on, however the bytes are cut.
 */
static size_t bytes_until_known(struct pomurica_session session, const uint8_t *bytes, size_t length)
{
    size_t before = 0; /* fed to the session, and nothing was known */

    while (length - before > 1) {
        const size_t half = (length - before) / 2;
        struct pomurica_session next = session;

        if (pomurica_feed(&next, bytes + before, half) == POMURICA_DONE) {
            session = next;
            before += half;
        } else {
            length = before + half;
        }
    }
    return length;
}

/* What comes behind a fault changes nothing.  So taken stays within the longest trace and one byte more. */
bool take_piece(struct arrival *arrival, const uint8_t *bytes, size_t length)
{
    const struct pomurica_session before = arrival->session;

    if (arrival->fault != POMURICA_DONE)
        return false;
    arrival->fault = pomurica_feed(&arrival->session, bytes, length);
    if (arrival->fault != POMURICA_DONE) {
        arrival->taken += (uint32_t)bytes_until_known(before, bytes, length);
        return true;
    }
    count_done_in(&arrival->done, bytes, length);
    arrival->taken += (uint32_t)length;
    return false;
}
