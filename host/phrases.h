/*
 * Words for what stands in a trace: names, and phrases without a line end.
 * They are made of this file's own letters and of numbers, whatever the bytes
 * of the trace are, and never of `<`, `>`, `&` or a quote.
 */
#ifndef PHRASES_H
#define PHRASES_H

#include <stdint.h>
#include <stdio.h>

/* NULL for a number that is no mode's, no event's. */
const char *mode_name(uint32_t mode);
const char *event_name(uint32_t code);

/* The register at a place of the block. */
const char *register_name(uint32_t place);

/* The register that A of a banked access names; NULL for an A that names none. */
const char *banked_name(uint32_t a);

/* A part of a Step: enum pomurica_part, but not POMURICA_PART_NONE. */
const char *part_name(uint32_t part);

/* Both take the first three words of a report or an explanation, and how many Steps of an accepted trace were done. */

/* The verdict: "accepted, 9 Steps: 8 done, 1 refused". */
void tell_verdict(FILE *out, const uint8_t *report, uint32_t done);

/* The warning that goes with an accepted trace in which no Step was done; NULL for any other. */
const char *warning_of(const uint8_t *report, uint32_t done);

/*
 * The event of a Step: "interrupt check, lines IRQ"; with what is wrong with it:
 * "banked read, A 64, above 63".  What A of a return may be goes by the mode
 * before the Step: "exception return, A 4, which must be 0 from Hyp"; what A of a
 * Prefetch Abort, of an interrupt check and of a note may be, by the layout:
 * "debug Prefetch Abort" is in the old one "Prefetch Abort, A 4, above 3", and
 * "interrupt check, lines virtual IRQ" in the new one "interrupt check, A 16,
 * above 7".
 */
void tell_event(FILE *out, const uint8_t *step);

/* The words of the event: "code 9, A 0x00000004, B 0x00000000". */
void tell_event_words(FILE *out, const uint8_t *step);

/* The state of a block: "Non-secure Supervisor, masked I". */
void tell_state(FILE *out, const uint8_t *block);

/*
 * What an answer says came of the event of a Step: "enters IRQ mode at 0x18".
 * Of a call that is disabled with the reason, by the block before the Step:
 * "refused with 16 DISABLED (HVC is disabled: SCR.HCE is 0)"; and so of a return
 * that its saved word refuses, of an access that is denied, and of an event that
 * only the other layout knows.  Of a return that is done with what the rules make
 * of it, by that block too: "returns to Non-secure User at 0x00008004", "illegal
 * return (Hyp is above Exception level 1): stays in Non-secure Supervisor, IL
 * becomes 1, goes on at 0x00008004".
 */
void tell_outcome(FILE *out, const uint8_t *step, uint32_t number, uint32_t value);

#endif
