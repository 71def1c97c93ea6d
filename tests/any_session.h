/*
 * Sessions of chance: traces that arrive, the runs in which they come, and
 * sessions that no feeding leaves.
 */
#ifndef ANY_SESSION_H
#define ANY_SESSION_H

#include "chance.h"
#include "pomurica.h"
#include "traces.h"

#include <stddef.h>
#include <stdint.h>

/* A trace of chance, damaged so, of at most MADE_SIZE bytes; now and then its Start has the most Steps, or about as many. */
size_t any_arriving(struct chance *chance, enum damage damage, uint8_t *trace);

/* How far a run reaches that begins at this byte: nowhere, a few bytes on, to about where a record begins, or to the end. */
size_t any_cut(struct chance *chance, const uint8_t *trace, size_t at, size_t length);

/* A session that has been fed the first so many bytes, at most all; gives how many. */
size_t any_session(struct chance *chance, const uint8_t *trace, size_t length, struct pomurica_session *session);

/* Makes of a session one that no feeding leaves, or seldom: one to three things of it changed. */
void spoil_session(struct chance *chance, struct pomurica_session *session);

#endif
