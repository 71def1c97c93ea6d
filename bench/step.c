/*
 * The step, written for speed: worked on where it was lent; the block judged
 * once, by branches that a good one falls through; sets of modes as bits of a
 * word; a function for each event, reached by one jump with its arguments in
 * registers; for each target its own entry, so that places and masks are
 * constants.
 *
 * Words are read and written by memcpy, in the machine's own order: this is
 * for little-endian machines, which all that run the archive are.
 */
#include "speed.h"

#include "pomurica.h"

#include <stdbool.h>
#include <string.h>

#define ALWAYS_INLINE static inline __attribute__((always_inline))
#define UNLIKELY(condition) __builtin_expect((condition), 0)

/* Sets of modes. */
#define ONLY(mode) (UINT32_C(1) << (mode))
#define USER ONLY(POMURICA_MODE_USER)
#define MONITOR ONLY(POMURICA_MODE_MONITOR)
#define HYP ONLY(POMURICA_MODE_HYP)
#define EL1 (ONLY(POMURICA_MODE_FIQ) | ONLY(POMURICA_MODE_IRQ) | ONLY(POMURICA_MODE_SUPERVISOR) | \
             ONLY(POMURICA_MODE_ABORT) | ONLY(POMURICA_MODE_UNDEFINED) | ONLY(POMURICA_MODE_SYSTEM))
#define UNKNOWN (~(USER | MONITOR | HYP | EL1))

enum {
    MODE = 0x1F, T = 1 << 5, F = 1 << 6, I = 1 << 7, A = 1 << 8, E = 1 << 9, IL = 1 << 20, ZERO_IN_CPSR = 0xF << 21,
    NS = 1 << 0, SCR_IRQ = 1 << 1, SCR_FIQ = 1 << 2, EA = 1 << 3, FW = 1 << 4, AW = 1 << 5, SCD = 1 << 7, HCE = 1 << 8,
    FMO = 1 << 3, IMO = 1 << 4, AMO = 1 << 5, VF = 1 << 6, VI = 1 << 7, VA = 1 << 8,
    TSC = 1 << 19, TGE = 1 << 27,
    V = 1 << 13,
    TDE = 1 << 8
};

/* N Z C V Q, GE and the masks stay at an entry. */
#define KEPT UINT32_C(0xF80F01C0)

/* By EA, SCR.FIQ, SCR.IRQ: the masks that an entry to Hyp sets. */
static const uint16_t HYP_SETS[8] = { A | I | F, A | F, A | I, A, I | F, F, I, 0 };

/* What an event knows of a good block before it does anything. */
struct state {
    uint8_t *block;
    uint32_t cpsr, scr;
    uint32_t mode, ns;
};

ALWAYS_INLINE uint32_t get(const uint8_t *block, uint32_t place)
{
    uint32_t word;

    memcpy(&word, block + 4 * place, sizeof word);
    return word;
}

ALWAYS_INLINE void put(uint8_t *block, uint32_t place, uint32_t word)
{
    memcpy(block + 4 * place, &word, sizeof word);
}

ALWAYS_INLINE uint32_t is_in(uint32_t mode, uint32_t modes)
{
    return modes >> mode & 1;
}

/* The modes in which no block with these two words is good. */
ALWAYS_INLINE uint32_t not_good(uint32_t scr, uint32_t hcr)
{
    if (!(scr & NS))
        return UNKNOWN | HYP;
    return hcr & TGE ? UNKNOWN | EL1 : UNKNOWN;
}

/* Whether a block with these three words is good. */
ALWAYS_INLINE uint32_t is_good(uint32_t cpsr, uint32_t scr, uint32_t hcr)
{
    return !is_in(cpsr & MODE, not_good(scr, hcr)) && !(cpsr & ZERO_IN_CPSR);
}

/* The number of a block that is not good. */
ALWAYS_INLINE uint32_t fault_of(uint32_t cpsr)
{
    return is_in(cpsr & MODE, UNKNOWN) ? POMURICA_BAD_MODE : POMURICA_BAD_STATE;
}

/* T from TE, bit 30, and E from EE, bit 25: the product has the top seven bits twice, nine apart. */
ALWAYS_INLINE uint32_t t_and_e(uint32_t sctlr)
{
    return (sctlr >> 25) * 513 & (T | E);
}

ALWAYS_INLINE uint32_t value_of(uint32_t which, uint32_t mode, uint32_t offset)
{
    return which << 16 | mode << 8 | offset;
}

/* What every entry writes. */
ALWAYS_INLINE void write_entry(const struct state *state, uint32_t spsr, uint32_t lr, uint32_t link,
                               uint32_t sets, uint32_t sctlr, uint32_t vector)
{
    put(state->block, spsr, state->cpsr);
    put(state->block, lr, link);
    put(state->block, POMURICA_PLACE_CPSR, (state->cpsr & KEPT) | sets | t_and_e(sctlr));
    put(state->block, POMURICA_PLACE_PC, vector);
}

ALWAYS_INLINE uint32_t enter_hyp(const struct state *state, uint32_t which, uint32_t offset,
                                 uint32_t link)
{
    uint8_t *block = state->block;

    write_entry(state, POMURICA_PLACE_SPSR_HYP, POMURICA_PLACE_ELR_HYP, link,
                HYP_SETS[state->scr >> 1 & 7] | POMURICA_MODE_HYP,
                get(block, POMURICA_PLACE_HSCTLR),
                (get(block, POMURICA_PLACE_HVBAR) & ~UINT32_C(31)) | offset);
    return value_of(which, POMURICA_MODE_HYP, offset);
}

/* Anything but IRQ and FIQ entering Hyp from another mode uses 0x14. */
ALWAYS_INLINE uint32_t enter_hyp_own(const struct state *state, uint32_t which, uint32_t own_offset,
                                     uint32_t link)
{
    return enter_hyp(state, which, state->mode == POMURICA_MODE_HYP ? own_offset : 0x14, link);
}

ALWAYS_INLINE uint32_t enter_monitor(const struct state *state, uint32_t which, uint32_t offset,
                                     uint32_t link)
{
    uint8_t *block = state->block;

    if (state->mode == POMURICA_MODE_MONITOR)
        put(block, POMURICA_PLACE_SCR, state->scr & ~(uint32_t)NS);
    write_entry(state, POMURICA_PLACE_SPSR_MON, POMURICA_PLACE_LR_MON, link,
                A | I | F | POMURICA_MODE_MONITOR, get(block, POMURICA_PLACE_SCTLR_S),
                (get(block, POMURICA_PLACE_MVBAR) & ~UINT32_C(31)) | offset);
    return value_of(which, POMURICA_MODE_MONITOR, offset);
}

/* To a mode of the state itself: SCTLR and VBAR are those of NS after the entry. */
ALWAYS_INLINE uint32_t enter_own(const struct state *state, uint32_t which, uint32_t mode,
                                 uint32_t sets, uint32_t spsr, uint32_t lr, uint32_t offset,
                                 uint32_t link)
{
    uint8_t *block = state->block;
    uint32_t ns = state->ns, sctlr, base;

    if (state->mode == POMURICA_MODE_MONITOR) {
        put(block, POMURICA_PLACE_SCR, state->scr & ~(uint32_t)NS);
        ns = 0;
    }
    sctlr = get(block, POMURICA_PLACE_SCTLR_S + ns);
    base = get(block, POMURICA_PLACE_VBAR_S + ns);
    if (sctlr & V)
        base = 0xFFFF0000;
    write_entry(state, spsr, lr, link, sets | mode, sctlr, (base & ~UINT32_C(31)) | offset);
    return value_of(which, mode, offset);
}

ALWAYS_INLINE uint32_t enter_abort(const struct state *state, uint32_t which, uint32_t offset,
                                   uint32_t link)
{
    return enter_own(state, which, POMURICA_MODE_ABORT, A | I, POMURICA_PLACE_SPSR_ABT,
                     POMURICA_PLACE_LR_ABT, offset, link);
}

ALWAYS_INLINE uint32_t enter_fiq(const struct state *state, uint32_t which, uint32_t link)
{
    return enter_own(state, which, POMURICA_MODE_FIQ, A | I | F, POMURICA_PLACE_SPSR_FIQ,
                     POMURICA_PLACE_LR_FIQ, 0x1C, link);
}

ALWAYS_INLINE uint32_t enter_irq(const struct state *state, uint32_t which, uint32_t link)
{
    return enter_own(state, which, POMURICA_MODE_IRQ, A | I, POMURICA_PLACE_SPSR_IRQ,
                     POMURICA_PLACE_LR_IRQ, 0x18, link);
}

/* 4, or 2 if T is 1. */
ALWAYS_INLINE uint32_t size_of_instruction(uint32_t cpsr)
{
    return 4 - (cpsr >> 4 & 2);
}

/* Whether PSTATE's mask bit, which is set, keeps a physical exception off. */
ALWAYS_INLINE uint32_t is_obeyed(uint32_t secure, uint32_t hyp, uint32_t m, uint32_t r, uint32_t w)
{
    if (secure)
        return 1;
    if (m)
        return hyp && !r;
    return !r || w;
}

ALWAYS_INLINE uint32_t answer_with(uint8_t *answer, uint32_t number, uint32_t value)
{
    put(answer, 0, number);
    put(answer, 1, value);
    return number;
}

/* The value of an interrupt check: `more` has VF and VI as they are signalled beside those of HCR. */
ALWAYS_INLINE uint32_t take_first(const struct state *state, uint32_t lines, uint32_t more)
{
    const uint32_t cpsr = state->cpsr, scr = state->scr;
    const uint32_t hcr = get(state->block, POMURICA_PLACE_HCR), sources = hcr | more;
    const uint32_t hyp = state->mode == POMURICA_MODE_HYP;
    const uint32_t secure = !state->ns || state->mode == POMURICA_MODE_MONITOR;
    const uint32_t pc = get(state->block, POMURICA_PLACE_PC);

    if ((lines & POMURICA_LINE_SERROR) &&
        !((cpsr & A) && is_obeyed(secure, hyp, hcr & (AMO | TGE), scr & EA, scr & AW))) {
        if (scr & EA)
            return enter_monitor(state, 1, 0x10, pc + 8);
        if (hyp || (!secure && (hcr & (TGE | AMO))))
            return enter_hyp_own(state, 1, 0x10, pc);
        return enter_abort(state, 1, 0x10, pc + 8);
    }
    if ((lines & POMURICA_LINE_FIQ) &&
        !((cpsr & F) && is_obeyed(secure, hyp, hcr & (FMO | TGE), scr & SCR_FIQ, scr & FW))) {
        if (scr & SCR_FIQ)
            return enter_monitor(state, 2, 0x1C, pc + 4);
        if (hyp || (!secure && (hcr & (TGE | FMO))))
            return enter_hyp(state, 2, 0x1C, pc);
        return enter_fiq(state, 2, pc + 4);
    }
    if ((lines & POMURICA_LINE_IRQ) &&
        !((cpsr & I) && is_obeyed(secure, hyp, hcr & (IMO | TGE), scr & SCR_IRQ, 1))) {
        if (scr & SCR_IRQ)
            return enter_monitor(state, 3, 0x18, pc + 4);
        if (hyp || (!secure && (hcr & (TGE | IMO))))
            return enter_hyp(state, 3, 0x18, pc);
        return enter_irq(state, 3, pc + 4);
    }
    if (secure || hyp || (hcr & TGE))
        return 0;
    if ((hcr & (AMO | VA)) == (AMO | VA) && !(cpsr & A)) {
        put(state->block, POMURICA_PLACE_HCR, hcr & ~(uint32_t)VA);
        return enter_abort(state, 4, 0x10, pc + 8);
    }
    if ((sources & (FMO | VF)) == (FMO | VF) && !(cpsr & F))
        return enter_fiq(state, 5, pc + 4);
    if ((sources & (IMO | VI)) == (IMO | VI) && !(cpsr & I))
        return enter_irq(state, 6, pc + 4);
    return 0;
}

#define NONE 0xFF

/* By 32 * R + SYSm: the place of the register, or NONE. */
static const uint8_t CELLS[64] = {
    0, 1, 2, 3, 4, 5, 6, NONE, 7, 8, 9, 10, 11, 12, 13, NONE,
    14, 15, 16, 17, 18, 19, 20, 21, NONE, NONE, NONE, NONE, 22, 23, 24, 25,
    NONE, NONE, NONE, NONE, NONE, NONE, NONE, NONE,
    NONE, NONE, NONE, NONE, NONE, NONE, 26, NONE,
    27, NONE, 28, NONE, 29, NONE, 30, NONE,
    NONE, NONE, NONE, NONE, 31, NONE, 32, NONE,
};

/* The modes of a set in the low half for NS 0, in the high half for NS 1: modes 0x10 to 0x1F are bits 0 to 15. */
#define BOTH(modes) (((modes) >> 16) | ((modes) & UINT32_C(0xFFFF0000)))
#define NS_1(modes) ((modes) & UINT32_C(0xFFFF0000))
#define BUT(modes) (UINT32_C(0xFFFF0000) & ~(uint32_t)(modes))
#define FROM(mode) BOTH(ONLY(mode) | USER)

/* By place: the modes and states that may not reach the register. */
static const uint32_t DENIED[33] = {
    [0 ... 4] = BOTH(BUT(ONLY(POMURICA_MODE_FIQ))),
    [5] = FROM(POMURICA_MODE_SYSTEM),
    [6] = BOTH(ONLY(POMURICA_MODE_SYSTEM) | HYP | USER),
    [7 ... 13] = FROM(POMURICA_MODE_FIQ),
    [14 ... 15] = FROM(POMURICA_MODE_IRQ),
    [16 ... 17] = FROM(POMURICA_MODE_SUPERVISOR),
    [18 ... 19] = FROM(POMURICA_MODE_ABORT),
    [20 ... 21] = FROM(POMURICA_MODE_UNDEFINED),
    [22 ... 23] = FROM(POMURICA_MODE_MONITOR) | NS_1(BUT(0)),
    [24] = BOTH(BUT(MONITOR | HYP)),
    [25] = BOTH(BUT(MONITOR)),
    [26] = FROM(POMURICA_MODE_FIQ),
    [27] = FROM(POMURICA_MODE_IRQ),
    [28] = FROM(POMURICA_MODE_SUPERVISOR),
    [29] = FROM(POMURICA_MODE_ABORT),
    [30] = FROM(POMURICA_MODE_UNDEFINED),
    [31] = FROM(POMURICA_MODE_MONITOR) | NS_1(BUT(0)),
    [32] = BOTH(BUT(MONITOR)),
};

/* By place: the modes that reach the register by another instruction; User, which has no right, is left out. */
static const uint32_t OWNERS[33] = {
    [0 ... 4] = BUT(ONLY(POMURICA_MODE_FIQ) | USER),
    [5] = ONLY(POMURICA_MODE_SYSTEM),
    [6] = ONLY(POMURICA_MODE_SYSTEM) | HYP,
    [7 ... 13] = ONLY(POMURICA_MODE_FIQ),
    [14 ... 15] = ONLY(POMURICA_MODE_IRQ),
    [16 ... 17] = ONLY(POMURICA_MODE_SUPERVISOR),
    [18 ... 19] = ONLY(POMURICA_MODE_ABORT),
    [20 ... 21] = ONLY(POMURICA_MODE_UNDEFINED),
    [22 ... 23] = MONITOR,
    [25] = HYP,
    [26] = ONLY(POMURICA_MODE_FIQ),
    [27] = ONLY(POMURICA_MODE_IRQ),
    [28] = ONLY(POMURICA_MODE_SUPERVISOR),
    [29] = ONLY(POMURICA_MODE_ABORT),
    [30] = ONLY(POMURICA_MODE_UNDEFINED),
    [31] = MONITOR,
    [32] = HYP,
};

ALWAYS_INLINE uint32_t right_to(const struct state *state, uint32_t place)
{
    if (place == NONE)
        return POMURICA_NO_REGISTER;
    if (DENIED[place] >> ((state->mode & 15) | state->ns << 4) & 1)
        return OWNERS[place] >> state->mode & 1 ? POMURICA_OWN_REGISTER : POMURICA_NO_RIGHT;
    return POMURICA_DONE;
}

/* Non-secure User with TGE 1, and Hyp: where Undefined, SVC and the aborts go to Hyp. */
ALWAYS_INLINE uint32_t goes_to_hyp(const struct state *state)
{
    if (state->mode == POMURICA_MODE_HYP)
        return 1;
    return state->mode == POMURICA_MODE_USER && state->ns &&
           (get(state->block, POMURICA_PLACE_HCR) & TGE);
}

/* An event on a good block: what it does, and its answer. */
#define EVENT(name)                                                              \
    static uint32_t name(uint8_t *block, uint32_t cpsr, uint32_t scr,            \
                         uint32_t a, uint32_t b, uint8_t *answer)
#define STATE { block, cpsr, scr, cpsr & MODE, scr & NS }
#define PC get(block, POMURICA_PLACE_PC)
#define REFUSE(number) return answer_with(answer, (number), 0)
#define DONE_WITH(value) return answer_with(answer, POMURICA_DONE, (value))

EVENT(undefined)
{
    const struct state state = STATE;

    if (a | b)
        REFUSE(POMURICA_BAD_EVENT);
    if (goes_to_hyp(&state))
        DONE_WITH(enter_hyp_own(&state, 0, 0x04, PC));
    DONE_WITH(enter_own(&state, 0, POMURICA_MODE_UNDEFINED, I, POMURICA_PLACE_SPSR_UND,
                        POMURICA_PLACE_LR_UND, 0x04, PC + size_of_instruction(cpsr)));
}

EVENT(svc)
{
    const struct state state = STATE;
    const uint32_t next = PC + size_of_instruction(cpsr);

    if (a | b)
        REFUSE(POMURICA_BAD_EVENT);
    if (goes_to_hyp(&state))
        DONE_WITH(enter_hyp_own(&state, 0, 0x08, next));
    DONE_WITH(enter_own(&state, 0, POMURICA_MODE_SUPERVISOR, I, POMURICA_PLACE_SPSR_SVC,
                        POMURICA_PLACE_LR_SVC, 0x08, next));
}

EVENT(smc)
{
    const struct state state = STATE;

    if (a | b)
        REFUSE(POMURICA_BAD_EVENT);
    if (state.mode == POMURICA_MODE_USER)
        REFUSE(POMURICA_NOT_HERE);
    if ((get(block, POMURICA_PLACE_HCR) & TSC) && state.ns && is_in(state.mode, EL1))
        DONE_WITH(enter_hyp(&state, 0, 0x14, PC));
    if (scr & SCD)
        REFUSE(POMURICA_DISABLED);
    DONE_WITH(enter_monitor(&state, 0, 0x08, PC + 4));
}

EVENT(hvc)
{
    const struct state state = STATE;

    if (a | b)
        REFUSE(POMURICA_BAD_EVENT);
    if (!state.ns || is_in(state.mode, USER | MONITOR))
        REFUSE(POMURICA_NOT_HERE);
    if (!(scr & HCE))
        REFUSE(POMURICA_DISABLED);
    DONE_WITH(enter_hyp_own(&state, 0, 0x08, PC + 4));
}

/* Both aborts: their offset, and what their link adds. */
ALWAYS_INLINE uint32_t abort_with(const struct state *state, uint32_t a, uint32_t b,
                                  uint32_t offset, uint32_t added, uint8_t *answer)
{
    const uint32_t pc = get(state->block, POMURICA_PLACE_PC);

    if (a > 3 || b)
        REFUSE(POMURICA_BAD_EVENT);
    if ((a & POMURICA_ABORT_STAGE_2) && (!state->ns || is_in(state->mode, MONITOR | HYP)))
        REFUSE(POMURICA_NOT_HERE);
    if ((a & POMURICA_ABORT_EXTERNAL) && (state->scr & EA))
        DONE_WITH(enter_monitor(state, 0, offset, pc + added));
    if ((a & POMURICA_ABORT_STAGE_2) || goes_to_hyp(state))
        DONE_WITH(enter_hyp_own(state, 0, offset, pc));
    DONE_WITH(enter_abort(state, 0, offset, pc + added));
}

/* From Non-secure User and Non-secure EL1 with TDE 1: where a debug abort goes to Hyp. */
ALWAYS_INLINE uint32_t is_debugged(const struct state *state)
{
    return state->ns && !is_in(state->mode, MONITOR | HYP) && (get(state->block, POMURICA_PLACE_HDCR) & TDE);
}

/* A debug abort that does not go to Hyp so is as one with A 0. */
EVENT(prefetch_abort)
{
    const struct state state = STATE;

    if (a != POMURICA_ABORT_DEBUG)
        return abort_with(&state, a, b, 0x0C, 4, answer);
    if (!b && is_debugged(&state))
        DONE_WITH(enter_hyp(&state, 0, 0x14, PC));
    return abort_with(&state, 0, b, 0x0C, 4, answer);
}

EVENT(data_abort)
{
    const struct state state = STATE;

    return abort_with(&state, a, b, 0x10, 8, answer);
}

EVENT(hyp_trap)
{
    const struct state state = STATE;

    if (a | b)
        REFUSE(POMURICA_BAD_EVENT);
    if (!state.ns || is_in(state.mode, MONITOR | HYP))
        REFUSE(POMURICA_NOT_HERE);
    DONE_WITH(enter_hyp(&state, 0, 0x14, PC));
}

EVENT(monitor_trap)
{
    const struct state state = STATE;

    if (a | b)
        REFUSE(POMURICA_BAD_EVENT);
    if (state.mode == POMURICA_MODE_MONITOR)
        REFUSE(POMURICA_NOT_HERE);
    DONE_WITH(enter_monitor(&state, 0, 0x04, PC + size_of_instruction(cpsr)));
}

EVENT(interrupt_check)
{
    const struct state state = STATE;

    if (a > POMURICA_ALL_LINES || b)
        REFUSE(POMURICA_BAD_EVENT);
    DONE_WITH(take_first(&state, a, 0));
}

EVENT(banked_read)
{
    const struct state state = STATE;
    uint32_t number;

    if (a > 63 || b)
        REFUSE(POMURICA_BAD_EVENT);
    number = right_to(&state, CELLS[a]);
    if (number != POMURICA_DONE)
        REFUSE(number);
    DONE_WITH(get(block, CELLS[a]));
}

EVENT(banked_write)
{
    const struct state state = STATE;
    uint32_t number;

    if (a > 63)
        REFUSE(POMURICA_BAD_EVENT);
    number = right_to(&state, CELLS[a]);
    if (number != POMURICA_DONE)
        REFUSE(number);
    put(block, CELLS[a], b);
    DONE_WITH(0);
}

/* A note on a word that says whether a block is good is tested on the block it would make. */
EVENT(note)
{
    const uint32_t hcr = get(block, POMURICA_PLACE_HCR);
    uint32_t cpsr_after = cpsr, good = 1;

    if (a >= POMURICA_PLACES)
        REFUSE(POMURICA_BAD_EVENT);
    if (a == POMURICA_PLACE_CPSR)
        good = is_good(cpsr_after = b, scr, hcr);
    else if (a == POMURICA_PLACE_SCR)
        good = is_good(cpsr, b, hcr);
    else if (a == POMURICA_PLACE_HCR)
        good = is_good(cpsr, scr, b);
    if (!good)
        REFUSE(fault_of(cpsr_after));
    put(block, a, b);
    DONE_WITH(0);
}

/* What may be taken off LR, a bit for each A; from Hyp nothing. */
#define OFF_LR (1 << 0 | 1 << 2 | 1 << 4 | 1 << 8)
#define NOTHING (1 << 0)
#define MOST_OFF 8

/* By mode, from 0x10 on: what its return goes by.  User and System have no SPSR, and there not even 0 may be taken off. */
#define BY(mode) [POMURICA_MODE_##mode - POMURICA_MODE_USER]
static const struct {
    uint8_t spsr, link;
    uint16_t off;
    uint32_t above; /* the modes of a higher level, with NS 1; with NS 0 these are at EL3 themselves */
} RETURNS[16] = {
    BY(USER) = { POMURICA_PLACE_CPSR, POMURICA_PLACE_PC, 0, 0 },
    BY(FIQ) = { POMURICA_PLACE_SPSR_FIQ, POMURICA_PLACE_LR_FIQ, OFF_LR, MONITOR | HYP },
    BY(IRQ) = { POMURICA_PLACE_SPSR_IRQ, POMURICA_PLACE_LR_IRQ, OFF_LR, MONITOR | HYP },
    BY(SUPERVISOR) = { POMURICA_PLACE_SPSR_SVC, POMURICA_PLACE_LR_SVC, OFF_LR, MONITOR | HYP },
    BY(MONITOR) = { POMURICA_PLACE_SPSR_MON, POMURICA_PLACE_LR_MON, OFF_LR, 0 },
    BY(ABORT) = { POMURICA_PLACE_SPSR_ABT, POMURICA_PLACE_LR_ABT, OFF_LR, MONITOR | HYP },
    BY(HYP) = { POMURICA_PLACE_SPSR_HYP, POMURICA_PLACE_ELR_HYP, NOTHING, MONITOR },
    BY(UNDEFINED) = { POMURICA_PLACE_SPSR_UND, POMURICA_PLACE_LR_UND, OFF_LR, MONITOR | HYP },
    BY(SYSTEM) = { POMURICA_PLACE_CPSR, POMURICA_PLACE_PC, 0, 0 },
};

ALWAYS_INLINE uint32_t may_be_off(uint32_t a, uint32_t off)
{
    return a <= MOST_OFF && (off >> a & 1);
}

/* Apart, so that a done return pays little for it.  The CPSR that User and System have for an SPSR is a good block's. */
static __attribute__((noinline, cold)) uint32_t refuse_return(uint32_t mode, uint32_t saved, uint32_t a, uint32_t b,
                                                              uint8_t *answer)
{
    if (saved & ZERO_IN_CPSR)
        REFUSE(POMURICA_BAD_STATE);
    if (b || !may_be_off(a, mode == POMURICA_MODE_HYP ? NOTHING : OFF_LR))
        REFUSE(POMURICA_BAD_EVENT);
    REFUSE(POMURICA_NOT_HERE);
}

/* The saved word; where its mode is illegal, the mode stays and IL becomes 1. */
ALWAYS_INLINE uint32_t returned(uint32_t saved, uint32_t mode, uint32_t illegal)
{
    return is_in(saved & MODE, illegal) ? (saved & ~(uint32_t)MODE) | mode | IL : saved;
}

EVENT(exception_return)
{
    const struct state state = STATE;
    const uint32_t row = state.mode - POMURICA_MODE_USER;
    const uint32_t saved = get(block, RETURNS[row].spsr);
    uint32_t illegal;

    if (UNLIKELY(b || (saved & ZERO_IN_CPSR) || !may_be_off(a, RETURNS[row].off)))
        return refuse_return(state.mode, saved, a, b, answer);
    illegal = not_good(scr, get(block, POMURICA_PLACE_HCR)) | (state.ns ? RETURNS[row].above : 0);
    put(block, POMURICA_PLACE_PC, (get(block, RETURNS[row].link) - a) & (0 - size_of_instruction(saved)));
    put(block, POMURICA_PLACE_CPSR, returned(saved, state.mode, illegal));
    DONE_WITH(0);
}

EVENT(unknown)
{
    (void)block, (void)cpsr, (void)scr, (void)a, (void)b;
    REFUSE(POMURICA_BAD_EVENT);
}

/* The old layout has no debug abort. */
EVENT(old_prefetch_abort)
{
    const struct state state = STATE;

    return abort_with(&state, a, b, 0x0C, 4, answer);
}

/* It has the virtual lines too: they stand in A as VF and VI do in HCR, three bits lower. */
EVENT(old_interrupt_check)
{
    const struct state state = STATE;

    if (a > POMURICA_OLD_ALL_LINES || b)
        REFUSE(POMURICA_BAD_EVENT);
    DONE_WITH(take_first(&state, a, a << 3 & (VF | VI)));
}

/* And no HDCR. */
EVENT(old_note)
{
    if (a == POMURICA_PLACE_HDCR)
        REFUSE(POMURICA_BAD_EVENT);
    return note(block, cpsr, scr, a, b, answer);
}

/* By code. */
#define CODES 14
typedef uint32_t event_function(uint8_t *, uint32_t, uint32_t, uint32_t, uint32_t, uint8_t *);

static event_function *const EVENTS[CODES] = {
    unknown, undefined, svc, smc, hvc, prefetch_abort, data_abort, hyp_trap, monitor_trap,
    interrupt_check, banked_read, banked_write, note, exception_return,
};

static event_function *const OLD_EVENTS[CODES] = {
    unknown, undefined, svc, smc, hvc, old_prefetch_abort, data_abort, hyp_trap, monitor_trap,
    old_interrupt_check, banked_read, banked_write, old_note, exception_return,
};

/* Apart, so that a good block pays nothing for it. */
static __attribute__((noinline, cold)) uint32_t refuse_block(uint32_t cpsr, uint8_t *answer)
{
    REFUSE(fault_of(cpsr));
}

/* The step on buffers that have their sizes, by the rules of a layout. */
ALWAYS_INLINE uint32_t step_in(bool old, uint8_t *block, uint32_t code, uint32_t a, uint32_t b, uint8_t *answer)
{
    const uint32_t cpsr = get(block, POMURICA_PLACE_CPSR);
    const uint32_t scr = get(block, POMURICA_PLACE_SCR);

    if (UNLIKELY(!is_good(cpsr, scr, get(block, POMURICA_PLACE_HCR))))
        return refuse_block(cpsr, answer);
    if (UNLIKELY(code >= CODES))
        REFUSE(POMURICA_BAD_EVENT);
    return (old ? OLD_EVENTS : EVENTS)[code](block, cpsr, scr, a, b, answer);
}

uint32_t fast_step(uint8_t *block, size_t block_len, uint32_t code, uint32_t a, uint32_t b,
                   uint8_t *answer, size_t answer_len)
{
    if (UNLIKELY(block_len != POMURICA_BLOCK_SIZE || answer_len != POMURICA_ANSWER_SIZE))
        return POMURICA_BAD_SIZE;
    return step_in(false, block, code, a, b, answer);
}
