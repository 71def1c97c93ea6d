/*
 * The decision table of host/decisions.h, held against the step: on every good
 * block an interrupt check with one physical line alone takes that exception
 * where the table says so, and to the mode that it says.  Each of the 192
 * indexes that have a class is met, with each kind that has its W.
 */
#include "chance.h"
#include "decisions.h"
#include "group.h"
#include "pomurica.h"

#include <stdio.h>
#include <string.h>

enum { BLOCKS = 100000, INDEXES = 256, FIRST_UNUSED = 192, UNUSED = 4 };

/* A physical exception: its line, its bits in CPSR, SCR and HCR, and where it goes by default; W is 0 where it has no bit. */
struct kind {
    const char *name;
    uint32_t number, line, mask, w, m, r, own_mode;
};

static const struct kind KINDS[] = {
    { "SError", 1, POMURICA_LINE_SERROR, POMURICA_CPSR_A, POMURICA_SCR_AW, POMURICA_HCR_AMO, POMURICA_SCR_EA, POMURICA_MODE_ABORT },
    { "FIQ", 2, POMURICA_LINE_FIQ, POMURICA_CPSR_F, POMURICA_SCR_FW, POMURICA_HCR_FMO, POMURICA_SCR_FIQ, POMURICA_MODE_FIQ },
    { "IRQ", 3, POMURICA_LINE_IRQ, POMURICA_CPSR_I, 0, POMURICA_HCR_IMO, POMURICA_SCR_IRQ, POMURICA_MODE_IRQ },
};

static uint32_t times_met[sizeof KINDS / sizeof *KINDS][INDEXES];

static uint32_t class_of(uint32_t cpsr, uint32_t scr)
{
    const uint32_t mode = cpsr & POMURICA_CPSR_MODE;

    if (!(scr & POMURICA_SCR_NS) || mode == POMURICA_MODE_MONITOR)
        return 0;
    return mode == POMURICA_MODE_HYP ? 2 : 1;
}

static uint32_t index_of(const struct kind *kind, bool pending, const uint8_t *block)
{
    const uint32_t cpsr = pomurica_get_word(block, POMURICA_PLACE_CPSR);
    const uint32_t scr = pomurica_get_word(block, POMURICA_PLACE_SCR);
    const uint32_t hcr = pomurica_get_word(block, POMURICA_PLACE_HCR);
    const bool w = kind->w == 0 || (scr & kind->w);

    return (uint32_t)pending | (uint32_t)!!(cpsr & kind->mask) << 1 | (uint32_t)w << 2 | (uint32_t)!!(hcr & kind->m) << 3 |
           (uint32_t)!!(hcr & POMURICA_HCR_TGE) << 4 | (uint32_t)!!(scr & kind->r) << 5 | class_of(cpsr, scr) << 6;
}

/* What the step did, as an entry: 0 if it took something else, or nothing. */
static uint32_t entry_by_step(const struct kind *kind, bool pending, const uint8_t *before)
{
    uint8_t block[POMURICA_BLOCK_SIZE], answer[POMURICA_ANSWER_SIZE];
    uint32_t value, mode;

    memcpy(block, before, sizeof block);
    check(pomurica_step(block, sizeof block, POMURICA_EVENT_INTERRUPT_CHECK, pending ? kind->line : 0, 0, answer,
                        sizeof answer) == POMURICA_DONE, "the check is done");
    value = pomurica_get_word(answer, POMURICA_ANSWER_VALUE);
    if (value >> 16 != kind->number)
        return 0;
    mode = value >> 8 & 0xFF;
    if (mode == POMURICA_MODE_MONITOR)
        return 1;
    if (mode == POMURICA_MODE_HYP)
        return 2;
    return mode == kind->own_mode ? 3 : UNUSED;
}

static void try_block(struct chance *chance)
{
    uint8_t block[POMURICA_BLOCK_SIZE];

    good_block(chance, block);
    for (size_t i = 0; i < sizeof KINDS / sizeof *KINDS; i++) {
        const bool pending = !one_in(chance, 4);
        const uint32_t index = index_of(&KINDS[i], pending, block);
        const uint32_t due = entry_by_step(&KINDS[i], pending, block);

        times_met[i][index]++;
        check(pomurica_decisions[index] == due, "%s at index %u: %u in the table, %u by the step", KINDS[i].name, index,
              pomurica_decisions[index], due);
    }
}

/* IRQ has no index with W 0. */
static bool can_be_met(const struct kind *kind, uint32_t index)
{
    return kind->w != 0 || (index & 4);
}

int main(void)
{
    struct chance chance = { .seed = 4 };

    group("the table against the step, on good blocks");
    for (int i = 0; i < BLOCKS; i++)
        try_block(&chance);
    group("every index of a class was met, with every kind");
    for (size_t i = 0; i < sizeof KINDS / sizeof *KINDS; i++)
        for (uint32_t index = 0; index < FIRST_UNUSED; index++)
            check(times_met[i][index] >= (can_be_met(&KINDS[i], index) ? 10 : 0), "%s at index %u: %u times", KINDS[i].name,
                  index, times_met[i][index]);
    group("the class that is unused");
    for (uint32_t index = FIRST_UNUSED; index < INDEXES; index++)
        check(pomurica_decisions[index] == UNUSED, "index %u", index);
    return summary();
}
