/*
 * The records of a trace where they lie, for those who find words and pictures
 * for them.  Nothing here looks for the end of the bytes: a record is asked for
 * only where the checker has found it whole.
 */
#ifndef RECORD_H
#define RECORD_H

#include "layout.h"
#include "pomurica.h"

#include <stdint.h>
#include <string.h>

/* The first byte of a Step; they are counted from 0 here, and from 1 where a person reads it. */
static inline uint32_t step_place(const uint8_t *trace, uint32_t index)
{
    const struct layout *const layout = layout_of(trace);

    return layout->start_size + index * layout->step_size;
}

static inline const uint8_t *step_at(const uint8_t *trace, uint32_t index)
{
    return trace + step_place(trace, index);
}

/* The block before a Step stands right before it, in a Start and in a Step. */
static inline const uint8_t *block_before(const uint8_t *step)
{
    return step - layout_of(step)->block_size;
}

static inline const uint8_t *block_after(const uint8_t *step)
{
    return step + 4 * POMURICA_STEP_BLOCK;
}

/* The mode of a block, which may be none. */
static inline uint32_t mode_of(const uint8_t *block)
{
    return pomurica_get_word(block, POMURICA_PLACE_CPSR) & POMURICA_CPSR_MODE;
}

/* What came of an event. */
enum outcome {
    OUTCOME_REFUSED, OUTCOME_READ, OUTCOME_WRITTEN, OUTCOME_NOTHING_TAKEN, OUTCOME_ENTRY,
    OUTCOME_RETURN /* legal or not */
};

static inline enum outcome outcome_of(uint32_t code, uint32_t number, uint32_t value)
{
    if (number != POMURICA_DONE)
        return OUTCOME_REFUSED;
    if (code == POMURICA_EVENT_BANKED_READ)
        return OUTCOME_READ;
    if (code == POMURICA_EVENT_BANKED_WRITE || code == POMURICA_EVENT_NOTE)
        return OUTCOME_WRITTEN;
    if (code == POMURICA_EVENT_RETURN)
        return OUTCOME_RETURN;
    return code == POMURICA_EVENT_INTERRUPT_CHECK && value == 0 ? OUTCOME_NOTHING_TAKEN : OUTCOME_ENTRY;
}

/* What the rules of its layout give on the event of a Step from the block before it; HDCR of an old block is 0. */
struct due {
    uint8_t block[POMURICA_BLOCK_SIZE], answer[POMURICA_ANSWER_SIZE];
};

/* The bits of HCR that signal what virtual lines do. */
static inline uint32_t signalled_by(uint32_t lines)
{
    return (lines & POMURICA_LINE_VIRTUAL_FIQ ? POMURICA_HCR_VF : 0) |
           (lines & POMURICA_LINE_VIRTUAL_IRQ ? POMURICA_HCR_VI : 0);
}

/*
 * A step goes by the rules of the new layout.  So what an old one does not know is here an event of no code, and its
 * virtual lines are bits of HCR for the one step, which moves neither of them.
 */
static inline void find_due(const uint8_t *step, struct due *due)
{
    const struct layout *const layout = layout_of(step);
    const uint32_t a = pomurica_get_word(step, POMURICA_STEP_A), b = pomurica_get_word(step, POMURICA_STEP_B);
    const uint32_t hcr = pomurica_get_word(block_before(step), POMURICA_PLACE_HCR);
    uint32_t code = pomurica_get_word(step, POMURICA_STEP_CODE);
    const uint32_t lines = layout->old ? virtual_lines(code, a) : 0, set = signalled_by(lines) & ~hcr;

    if (layout->old && is_of_new_alone(code, a))
        code = 0;
    memset(due->block, 0, sizeof due->block);
    memcpy(due->block, block_before(step), layout->block_size);
    pomurica_put_word(due->block, POMURICA_PLACE_HCR, hcr | set);
    pomurica_step(due->block, sizeof due->block, code, a & ~lines, b, due->answer, sizeof due->answer);
    pomurica_put_word(due->block, POMURICA_PLACE_HCR, pomurica_get_word(due->block, POMURICA_PLACE_HCR) & ~set);
}

#endif
