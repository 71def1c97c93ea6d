/*
 * The records of a trace in both its layouts (No. 11 of document 02), which the
 * recorder (record.c) writes in the new one; what the checker (check.c) and the
 * session (session.c) both ask of one; and the step (step.c) by layout.
 */
#ifndef RECORDS_H
#define RECORDS_H

#include "words.h"

#include <stdbool.h>
#include <stdint.h>

/* The trace: "n at most 65,535". */
#define MOST_STEPS 65535

/* The trace: a record's length and kind. */
struct record {
    uint32_t length, kind;
};

/* The trace: the three records; No. 11: "Start kind 4 (188 bytes) and Step kind 5 (204); End is unchanged". */
static const struct record START[LAYOUTS] = {
    [OLD_LAYOUT] = { 184, 1 },
    [NEW_LAYOUT] = { 188, 4 },
};
static const struct record STEP[LAYOUTS] = {
    [OLD_LAYOUT] = { 200, 2 },
    [NEW_LAYOUT] = { 204, 5 },
};
static const struct record END = { 8, 3 };

/* The state block, No. 11: the bytes that a block has in a Start and in a Step. */
static const uint32_t BLOCK_LENGTH[LAYOUTS] = {
    [OLD_LAYOUT] = OLD_BLOCK_SIZE,
    [NEW_LAYOUT] = BLOCK_SIZE,
};

/* The trace: whether the length and the kind that a record opens with are those of the one due. */
bool second_is_due(const uint8_t *header, struct record due);

/* No. 11: the layout of a trace, by the header that it opens with; second_is_due asks whether that is a Start's. */
enum layout second_layout_of(const uint8_t *header);

/* No. 11: the block of a record into the 180 bytes that a step takes, "with HDCR 0" in the old layout. */
void second_take_block(enum layout layout, const uint8_t *bytes, uint8_t *block);

/* The trace: whether a Step is "what the rules give from the block before"; moves the block, of 180 bytes. */
bool second_is_right_step(enum layout layout, const uint8_t *step, uint8_t *block);

/* No. 11: the step "by the rules that hold for that layout", on a block of 180 bytes, with an answer of 8. */
uint32_t second_step_in(enum layout layout, uint8_t *block, uint32_t code, uint32_t a, uint32_t b, uint8_t *answer);

#endif
