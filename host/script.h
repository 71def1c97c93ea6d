/*
 * A script: the start block and the events of a trace that is to be recorded, as
 * text.  A line is empty, or `PLACE = NUMBER`, a word of the start block, or an
 * event by its word and operands (vocabulary.h); `#` begins a comment.  Words of
 * the block come before the first event, each at most once, and the others are
 * 0.  A number is decimal, or hexadecimal behind 0x, and has at most 32 bits.
 */
#ifndef SCRIPT_H
#define SCRIPT_H

#include "pomurica.h"

#include <stdbool.h>
#include <stddef.h>
#include <stdint.h>

/* Where an event stands in its script. */
struct origin {
    size_t line;      /* counted from 1 */
    const char *word; /* by which it is named there */
};

struct script {
    uint8_t block[POMURICA_BLOCK_SIZE];
    struct pomurica_event *events;
    struct origin *origins; /* one for each event */
    size_t count;           /* of the events: at most POMURICA_MOST_STEPS */
};

/*
 * Reads the file of this name, or standard input for `-`, to its end.  Gives
 * false where it cannot be read or is no script, and tells the first thing that
 * is wrong with it on standard error.  Only what was read is to be freed.
 */
bool read_script(struct script *script, const char *name);

void free_script(struct script *script);

#endif
