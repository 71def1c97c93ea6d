/*
 * The two layouts of a trace: all that they differ in, and which one a record is
 * of.  A Start and each Step tell it by their kind; in a trace they are of one.
 */
#ifndef LAYOUT_H
#define LAYOUT_H

#include "pomurica.h"

#include <stdbool.h>
#include <stdint.h>

struct layout {
    bool old;
    uint32_t start_size, start_kind;
    uint32_t step_size, step_kind;
    uint32_t block_size, places;
    uint32_t most_of_prefetch; /* that A of a Prefetch Abort may be */
    uint32_t lines;            /* of an interrupt check */
};

static inline const struct layout *new_layout(void)
{
    static const struct layout NEW = {
        .old = false,
        .start_size = POMURICA_START_SIZE, .start_kind = POMURICA_KIND_START,
        .step_size = POMURICA_STEP_SIZE, .step_kind = POMURICA_KIND_STEP,
        .block_size = POMURICA_BLOCK_SIZE, .places = POMURICA_PLACES,
        .most_of_prefetch = POMURICA_ABORT_DEBUG,
        .lines = POMURICA_ALL_LINES,
    };

    return &NEW;
}

/* It has no place for HDCR, which counts as 0, and knows no debug abort; it alone has lines for virtual interrupts. */
static inline const struct layout *old_layout(void)
{
    static const struct layout OLD = {
        .old = true,
        .start_size = POMURICA_OLD_START_SIZE, .start_kind = POMURICA_OLD_KIND_START,
        .step_size = POMURICA_OLD_STEP_SIZE, .step_kind = POMURICA_OLD_KIND_STEP,
        .block_size = POMURICA_OLD_BLOCK_SIZE, .places = POMURICA_OLD_PLACES,
        .most_of_prefetch = POMURICA_ABORT_EXTERNAL | POMURICA_ABORT_STAGE_2,
        .lines = POMURICA_OLD_ALL_LINES,
    };

    return &OLD;
}

static inline uint32_t size_in(uint32_t head)
{
    return head & 0xFFFF;
}

static inline uint32_t kind_in(uint32_t head)
{
    return head >> 16;
}

/* By the first word of a record: the old one for any kind that is not of the new. */
static inline const struct layout *layout_of_head(uint32_t head)
{
    const bool is_new = kind_in(head) == POMURICA_KIND_START || kind_in(head) == POMURICA_KIND_STEP;

    return is_new ? new_layout() : old_layout();
}

/* Of a trace whose Start has come, by that; of a Step of it, by its own. */
static inline const struct layout *layout_of(const uint8_t *record)
{
    return layout_of_head(pomurica_get_word(record, POMURICA_RECORD_HEAD));
}

/* Whether an event is one of those that the new layout alone knows. */
static inline bool is_of_new_alone(uint32_t code, uint32_t a)
{
    return (code == POMURICA_EVENT_PREFETCH_ABORT && a == POMURICA_ABORT_DEBUG) ||
           (code == POMURICA_EVENT_NOTE && a == POMURICA_PLACE_HDCR);
}

/* The virtual lines of an event, which the old layout alone knows; 0 where it has none. */
static inline uint32_t virtual_lines(uint32_t code, uint32_t a)
{
    const uint32_t lines = POMURICA_LINE_VIRTUAL_FIQ | POMURICA_LINE_VIRTUAL_IRQ;

    return code == POMURICA_EVENT_INTERRUPT_CHECK && a <= POMURICA_OLD_ALL_LINES ? a & lines : 0;
}

#endif
