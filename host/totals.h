/*
 * A totals file: counts kept as the lines that pomurica_count_lines makes of
 * them, and nothing else.  An empty file is all zero.  While one console has
 * it, others wait; it is written whole or not at all.
 */
#ifndef TOTALS_H
#define TOTALS_H

#include <stdbool.h>
#include <stddef.h>
#include <stdint.h>

struct totals {
    const char *name; /* as the user has it */
    char *place;      /* the file itself, behind the name's symbolic links */
    int file;         /* locked */
};

/* Both tell on standard error what goes wrong. */

/*
 * Opens the file, made where it is missing, waits until no other console has it
 * and reads its counts into 512 bytes.  Only what was opened is to be closed.
 */
bool open_totals(struct totals *totals, const char *name, uint8_t *counts);

/* Puts the lines in the place of those that it has, with the file's permissions. */
bool write_totals(const struct totals *totals, const uint8_t *lines, size_t length);

void close_totals(struct totals *totals);

#endif
