/*
 * Traces to judge: an honest one, as a recorder over the second
 * implementation's step writes it, and what can become of it on the way.  They
 * are of the layout that the chance is of.
 */
#ifndef TRACES_H
#define TRACES_H

#include "chance.h"
#include "pomurica.h"

#include <stdbool.h>
#include <stddef.h>
#include <stdint.h>

/* The sizes of records (document 01, No. 11). */
enum {
    HEAD_SIZE = 4, END_SIZE = POMURICA_END_SIZE,
    START_SIZE = POMURICA_START_SIZE, STEP_SIZE = POMURICA_STEP_SIZE,
    OLD_START_SIZE = POMURICA_OLD_START_SIZE, OLD_STEP_SIZE = POMURICA_OLD_STEP_SIZE
};

/* Those of a layout, and of the block that ends a Start and a Step. */
static inline uint32_t start_size(bool old)
{
    return old ? OLD_START_SIZE : START_SIZE;
}

static inline uint32_t step_size(bool old)
{
    return old ? OLD_STEP_SIZE : STEP_SIZE;
}

static inline uint32_t block_size(bool old)
{
    return old ? POMURICA_OLD_BLOCK_SIZE : POMURICA_BLOCK_SIZE;
}

static inline const char *layout_name(bool old)
{
    return old ? "old layout" : "new layout";
}

/* Where a record of an honest trace begins: 0 is the Start, then the Steps, then the End. */
static inline uint32_t record_place(bool old, uint32_t record)
{
    return record == 0 ? 0 : start_size(old) + (record - 1) * step_size(old);
}

/* The layout that a trace goes by: the kind that it opens with; of fewer bytes than have one, the old. */
static inline bool is_old(const uint8_t *trace)
{
    return pomurica_get_word(trace, POMURICA_RECORD_HEAD) >> 16 != POMURICA_KIND_START;
}

static inline bool is_taken_for_old(const uint8_t *trace, size_t length)
{
    return length < HEAD_SIZE || is_old(trace);
}

/* What is done to an honest trace. */
enum damage {
    HONEST,
    CUT,         /* before its last byte, at every kind of place */
    WRONG_WORD,  /* a word of a Step's answer, value or block after */
    OTHER_WORD,  /* any other word but a head: a count, the start block, an event */
    WRONG_BIT,   /* one bit anywhere */
    WRONG_COUNT, /* of Start or of End */
    WRONG_HEAD,  /* the length or the kind of a record */
    TOO_MUCH,    /* bytes behind the End */
    RUBBISH,     /* bytes that were never a trace, or begin like one */
    BOTH_LAYOUTS, /* some records are of the other one */
    ANY_HEAD,    /* a head of any length and any kind that there is */
    DAMAGES
};

extern const char *const DAMAGE_NAMES[DAMAGES];

/* What the checker has to say, where that is plain without judging the Steps. */
struct expected {
    bool known;
    uint32_t number, place, steps;
};

/* The most Steps, and bytes, of a trace that make_trace makes. */
enum {
    MADE_STEPS = 24,
    MADE_SIZE = 2 * (START_SIZE + MADE_STEPS * STEP_SIZE + END_SIZE)
};

/* An honest trace of n Steps, and one of n interrupt checks; gives its length. */
size_t record_trace(struct chance *chance, uint32_t n, uint8_t *trace);
size_t record_checks(struct chance *chance, uint32_t n, uint8_t *trace);

/* One of n Steps, of either layout, with events that it does not know too; behind it the chance is of the new one. */
size_t record_either(struct chance *chance, uint32_t n, uint8_t *trace);

/* A trace of chance, damaged so; gives its length. */
size_t make_trace(struct chance *chance, enum damage damage, uint8_t *trace,
                  struct expected *expected);

/* The same, of either layout, as record_either has it. */
size_t make_either(struct chance *chance, enum damage damage, uint8_t *trace,
                   struct expected *expected);

#endif
