/* What a page shows of a trace. */
#ifndef SHOWN_H
#define SHOWN_H

#include <stdbool.h>
#include <stdint.h>

/*
 * The most Steps that are shown one by one.  Of a longer trace the timeline has
 * several Steps to a column, and this many are listed.
 */
enum { MOST_SINGLE = 2000 };

/* Steps are counted from 0 here; a range goes from its first to before its last. */
struct shown {
    const uint8_t *trace, *explanation;
    uint32_t right;       /* so many were found right */
    uint32_t done;        /* so many of these were done */
    uint32_t judged;      /* the same and the wrong one, if there is one */
    uint32_t recorded;    /* the same and those behind the wrong one, which nobody judged */
    uint32_t first, last; /* those that are listed */
};

static inline bool is_wrong(const struct shown *shown, uint32_t index)
{
    return index == shown->right && index < shown->judged;
}

#endif
