/* A trace as it arrives: each piece is judged by the archive when it comes, and nothing is kept of it. */
#ifndef ARRIVAL_H
#define ARRIVAL_H

#include "done.h"
#include "pomurica.h"

#include <stdbool.h>
#include <stddef.h>
#include <stdint.h>

struct arrival {
    struct pomurica_session session;
    struct done done; /* means something where the trace is accepted */
    uint32_t fault;   /* the number of the fault that is known, or 0 */
    uint32_t taken;   /* how many bytes have come, up to the one with which the fault is known */
};

void begin_arrival(struct arrival *arrival);

/* The next bytes of the trace, any number of them.  Gives whether a fault became known with them. */
bool take_piece(struct arrival *arrival, const uint8_t *bytes, size_t length);

#endif
