/*
 * A trace in words for a person: what is to be said of its verdict, and what
 * its Steps were.  Everything that is judged here is judged by pomurica.h's functions;
 * this only finds words for it.
 */
#ifndef TELL_H
#define TELL_H

#include <stddef.h>
#include <stdint.h>
#include <stdio.h>

/* What the rules give on a Step, which a right one shows: its event, the state it was in and what came of it. */
void tell_step(FILE *out, const uint8_t *step);

/* Both take what pomurica_explain says of the trace. */

/*
 * Tells on lines of their own, of a refused trace, what was due and what was
 * there; of an accepted one the warning that goes with it, if one does.
 */
void tell_explanation(FILE *out, const uint8_t *trace, size_t length, const uint8_t *explanation);

/* Tells each Step that was found right, and the first wrong one, a line each. */
void tell_steps(FILE *out, const uint8_t *trace, const uint8_t *explanation);

#endif
