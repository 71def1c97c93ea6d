/*
 * Chance that repeats: numbers from a seed, and blocks and events made of
 * them.  Most blocks are good and most events known, so that the rules are
 * met and not only the refusals.
 */
#ifndef CHANCE_H
#define CHANCE_H

#include <stdbool.h>
#include <stddef.h>
#include <stdint.h>

/* Where the numbers come from; any seed will do. */
struct chance {
    uint64_t seed;
    bool old;    /* whether blocks and events are of the old layout: HDCR 0 and no debug (No. 11), virtual lines (No. 13) */
    bool strays; /* whether events that the old layout does not know come among them all the same, as in the new one */
};

struct event {
    uint32_t code, a, b;
};

/* The nine modes. */
#define MODE_COUNT 9
extern const uint8_t MODES[MODE_COUNT];

/* The modes that have an SPSR: its place, and that of the LR, or of ELR_hyp, by which they return. */
#define SAVING_COUNT 7
struct saving {
    uint8_t mode, spsr, link;
};
extern const struct saving SAVINGS[SAVING_COUNT];

/* The largest A of each of the thirteen codes, in the new layout; 0 where the event has none. */
extern const uint32_t LARGEST_A[];

/* From here on either layout by chance, with strays; and the new one again. */
void choose_layout(struct chance *chance);
void leave_layout(struct chance *chance);

uint32_t any_word(struct chance *chance);
uint32_t any_below(struct chance *chance, uint32_t limit);
bool one_in(struct chance *chance, uint32_t times);
void any_bytes(struct chance *chance, uint8_t *bytes, size_t length);

/* A block of any words that is good.  The figures of bench/ are counted on such blocks, with events of event_of. */
void good_block(struct chance *chance, uint8_t *block);

/* A block that is mostly good, sometimes almost, sometimes of any words. */
void any_block(struct chance *chance, uint8_t *block);

/* An event of the code, with operands in their ranges; the block helps a note or a return to be done. */
struct event event_of(struct chance *chance, uint32_t code, const uint8_t *block);

/* An event that is mostly one of the thirteen with operands in their ranges. */
struct event any_event(struct chance *chance, const uint8_t *block);

#endif
