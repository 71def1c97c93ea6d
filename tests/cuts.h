/*
 * How a trace may arrive: the runs in which its bytes come, and sessions that
 * no feeding left, with bytes for them.
 */
#ifndef CUTS_H
#define CUTS_H

#include "chance.h"
#include "pomurica.h"
#include "traces.h"

#include <stddef.h>
#include <stdint.h>

/* How bytes are cut. */
enum manner {
    BY_FEW,     /* 0, 1, 3, 4 or 5 at a time: around a head */
    BY_RECORDS, /* about as many as a record has */
    BY_ANY,     /* any of those left, so that large runs come first */
    AT_ONCE,
    MIXED,      /* each run in one of these manners */
    MANNERS
};

enum manner any_manner(struct chance *chance);

/* How many of the bytes left come in the next run; it may be none. */
size_t any_run(struct chance *chance, enum manner manner, size_t left);

/* A session that nobody opened, or that somebody wrote into, and the bytes to feed it. */
struct unopened {
    struct pomurica_session words;
    uint8_t bytes[MADE_SIZE];
    size_t length;
};

/* Mostly one that goes on with an honest trace, at any place and with any counts, and has one thing or another changed. */
void any_unopened(struct chance *chance, struct unopened *unopened);

#endif
