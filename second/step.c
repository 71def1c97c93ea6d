/*
 * The step, in the order of document 01, with No. 5, No. 8, No. 9, No. 10,
 * No. 11 and No. 13 of document 02.  The block's bytes are read into words once,
 * every rule speaks of words, and they go back as bytes only when the step is
 * DONE.
 */
#include "records.h"
#include "second.h"
#include "words.h"

#include <stdbool.h>

/* ------------------------------------------------------ The state block */

/* The state block: 45 words, by place. */
struct block {
    uint32_t word[PLACES];
};

/* The state block: the words of 180 bytes. */
static struct block read_block(const uint8_t *bytes)
{
    struct block block;

    for (uint32_t place = 0; place < PLACES; place++)
        block.word[place] = get_word(bytes + 4 * place);
    return block;
}

/* The state block: the words back into their 180 bytes. */
static void write_block(uint8_t *bytes, const struct block *block)
{
    for (uint32_t place = 0; place < PLACES; place++)
        put_word(bytes + 4 * place, block->word[place]);
}

/* The state block: whether the bit is 1 in the word at the place. */
static bool is_one(const struct block *block, enum place place, uint32_t bit)
{
    return (block->word[place] & bit) != 0;
}

/* The state block: a word with some of its bits made all 1 or all 0. */
static uint32_t with(uint32_t word, uint32_t bits, bool one)
{
    return one ? word | bits : word & ~bits;
}

/* The state block: CPSR bits 4-0. */
static uint32_t mode_of(const struct block *block)
{
    return block->word[CPSR] & CPSR_MODE;
}

/* The state block: sets of modes, one bit for each mode number. */
#define ONLY(mode) (UINT32_C(1) << (mode))
#define EL1_MODES (ONLY(MODE_FIQ) | ONLY(MODE_IRQ) | ONLY(MODE_SUPERVISOR) | \
                   ONLY(MODE_ABORT) | ONLY(MODE_UNDEFINED) | ONLY(MODE_SYSTEM))
#define ALL_NINE (ONLY(MODE_USER) | ONLY(MODE_MONITOR) | ONLY(MODE_HYP) | EL1_MODES)
#define ALL_BUT(modes) (ALL_NINE & ~(modes))
#define NO_MODE UINT32_C(0)

/* The state block: whether a mode number (0 to 31) is in a set of modes. */
static bool is_in(uint32_t mode, uint32_t modes)
{
    return (modes >> mode & 1) != 0;
}

/* The state block: "Secure if NS is 0 or the mode is Monitor". */
static bool is_secure(const struct block *block)
{
    return !is_one(block, SCR, SCR_NS) || mode_of(block) == MODE_MONITOR;
}

/* The state block: "NS EL1". */
static bool is_ns_el1(const struct block *block)
{
    return !is_secure(block) && is_in(mode_of(block), EL1_MODES);
}

/* The state block: "its mode is one of the nine". */
static bool is_mode_known(const struct block *block)
{
    return is_in(mode_of(block), ALL_NINE);
}

/* The state block: "A block is good if". */
static bool is_good(const struct block *block)
{
    if (!is_mode_known(block))
        return false;
    if ((block->word[CPSR] & CPSR_24_TO_21) != 0)
        return false;
    if (mode_of(block) == MODE_HYP && !is_one(block, SCR, SCR_NS))
        return false;
    if (is_ns_el1(block) && is_one(block, HCR, HCR_TGE))
        return false;
    return true;
}

/* --------------------------------------------------------------- Events */

/* Events: three words. */
struct event {
    uint32_t code, a, b;
};

/* Events: the largest A and B of each code; 0 where the paper names none; for A of a return see is_taken_off. */
static const struct {
    uint32_t a, b;
} LARGEST[CODES] = {
    [CODE_UNDEFINED]       = { 0, 0 },
    [CODE_SVC]             = { 0, 0 },
    [CODE_SMC]             = { 0, 0 },
    [CODE_HVC]             = { 0, 0 },
    [CODE_PREFETCH_ABORT]  = { 4, 0 }, /* No. 11: "4 with 1 or 2 is BAD_EVENT" */
    [CODE_DATA_ABORT]      = { 3, 0 },
    [CODE_HYP_TRAP]        = { 0, 0 },
    [CODE_MONITOR_TRAP]    = { 0, 0 },
    [CODE_INTERRUPT_CHECK] = { 31, 0 },
    [CODE_BANKED_READ]     = { 63, 0 },
    [CODE_BANKED_WRITE]    = { 63, UINT32_MAX },
    [CODE_NOTE]            = { 44, UINT32_MAX },
    [CODE_RETURN]          = { 8, 0 },
};

/* Events: codes 5 and 6. */
static bool is_abort(const struct event *event)
{
    return event->code == CODE_PREFETCH_ABORT || event->code == CODE_DATA_ABORT;
}

/* Events: "1 external". */
static bool is_external(const struct event *event)
{
    return is_abort(event) && (event->a & ABORT_EXTERNAL) != 0;
}

/* Events: "2 stage 2". */
static bool is_stage_2(const struct event *event)
{
    return is_abort(event) && (event->a & ABORT_STAGE_2) != 0;
}

/* No. 11: "4, debug", of a Prefetch Abort alone. */
static bool is_debug(const struct event *event)
{
    return event->code == CODE_PREFETCH_ABORT && event->a == ABORT_DEBUG;
}

/* Events: codes 10 and 11. */
static bool is_banked(const struct event *event)
{
    return event->code == CODE_BANKED_READ || event->code == CODE_BANKED_WRITE;
}

/* ------------------------------------------------------- Answer numbers */

/* Routing, below: whether an SMC goes to Hyp. */
static bool is_smc_trapped(const struct block *block);

/* Banked-register rights, below: the register of A, and whether it is denied with a number. */
static uint32_t register_of(const struct event *event);
static bool is_denied(const struct block *block, uint32_t place, enum number number);

/* The return, below: the saved word, if the mode has one, and the A that may be taken off its LR. */
static bool has_saved_word(const struct block *block);
static uint32_t saved_word(const struct block *block);
static bool is_taken_off(const struct block *block, uint32_t a);

/* Answer numbers: a cell that holds no register. */
#define NONE PLACES

/* Answer numbers: rows 2 and 3, on the block alone. */
static enum number refusal_of_block(const struct block *block)
{
    if (!is_mode_known(block))
        return BAD_MODE;
    if (!is_good(block))
        return BAD_STATE;
    return DONE;
}

/* No. 9: "A saved word with any of bits 24-21 set is BAD_STATE"; User and System have none. */
static bool is_bad_saved_word(const struct block *block, const struct event *event)
{
    return event->code == CODE_RETURN && has_saved_word(block) && (saved_word(block) & CPSR_24_TO_21) != 0;
}

/* Answer numbers: row 4; No. 9: "other A is BAD_EVENT". */
static bool is_bad_event(const struct block *block, const struct event *event)
{
    if (event->code < CODE_UNDEFINED || event->code >= CODES)
        return true;
    if (event->code == CODE_RETURN && !is_taken_off(block, event->a))
        return true;
    return event->a > LARGEST[event->code].a || event->b > LARGEST[event->code].b;
}

/* Answer numbers: row 5; No. 9: "User and System have none and get NOT_HERE". */
static bool is_not_here(const struct block *block, const struct event *event)
{
    const uint32_t mode = mode_of(block);

    if (event->code == CODE_HVC)
        return mode == MODE_USER || is_secure(block);
    if (event->code == CODE_SMC)
        return mode == MODE_USER;
    if (event->code == CODE_HYP_TRAP || is_stage_2(event))
        return is_secure(block) || mode == MODE_HYP;
    if (event->code == CODE_MONITOR_TRAP)
        return mode == MODE_MONITOR;
    if (event->code == CODE_RETURN)
        return !has_saved_word(block);
    return false;
}

/* Answer numbers: row 6. */
static bool has_no_register(const struct event *event)
{
    return is_banked(event) && register_of(event) == NONE;
}

/* Answer numbers: row 7, asked once row 6 does not apply; No. 10: "7 stays for User mode and for registers not accessible". */
static bool has_no_right(const struct block *block, const struct event *event)
{
    return is_banked(event) && is_denied(block, register_of(event), NO_RIGHT);
}

/*
 * No. 8: "SMC from Non-secure state with SCR.SCD (bit 7) 1, and HVC with SCR.HCE (bit 8) 0".  Where Arm leaves it open, for an
 * SMC from Secure and an HVC from Hyp, "we choose DISABLED there" too, so that the state is not asked.
 */
static bool is_disabled(const struct block *block, const struct event *event)
{
    if (event->code == CODE_SMC)
        return !is_smc_trapped(block) && is_one(block, SCR, SCR_SCD);
    if (event->code == CODE_HVC)
        return !is_one(block, SCR, SCR_HCE);
    return false;
}

/* No. 10: "17 OWN_REGISTER", asked once row 6 does not apply. */
static bool is_own_register(const struct block *block, const struct event *event)
{
    return is_banked(event) && is_denied(block, register_of(event), OWN_REGISTER);
}

/* Answer numbers: "The lowest number that applies wins"; No. 8: "NOT_HERE goes before it"; No. 10: "if both fit, 7". */
static enum number refusal_of(const struct block *block, const struct event *event)
{
    const enum number number = refusal_of_block(block);

    if (number != DONE)
        return number;
    if (is_bad_saved_word(block, event))
        return BAD_STATE;
    if (is_bad_event(block, event))
        return BAD_EVENT;
    if (is_not_here(block, event))
        return NOT_HERE;
    if (has_no_register(event))
        return NO_REGISTER;
    if (has_no_right(block, event))
        return NO_RIGHT;
    if (is_disabled(block, event))
        return DISABLED;
    if (is_own_register(block, event))
        return OWN_REGISTER;
    return DONE;
}

/* Answer numbers: which exception an entry was. */
enum which {
    SYNCHRONOUS = 0,
    PHYSICAL_SERROR = 1,
    PHYSICAL_FIQ = 2,
    PHYSICAL_IRQ = 3,
    VIRTUAL_SERROR = 4,
    VIRTUAL_FIQ = 5,
    VIRTUAL_IRQ = 6
};

/* Answer numbers: which * 65536 + mode * 256 + offset. */
static uint32_t value_of_entry(enum which which, enum mode mode, uint32_t offset)
{
    return (uint32_t)which * 65536 + (uint32_t)mode * 256 + offset;
}

/* -------------------------------------------------------------- Routing */

/* Routing: the exceptions it tells apart; a virtual one counts as its physical one. */
enum exception {
    UNDEFINED, SVC, SMC, TRAPPED_SMC, HVC, PREFETCH_ABORT, DATA_ABORT,
    HYP_TRAP, MONITOR_TRAP, SERROR, FIQ, IRQ,
    EXCEPTIONS
};

/* Routing: "SMC from NS EL1 with TSC 1"; No. 8: "still trapped to Hyp, since Arm tests the trap first", whatever SCD says. */
static bool is_smc_trapped(const struct block *block)
{
    return is_ns_el1(block) && is_one(block, HCR, HCR_TSC);
}

/* Routing: the exception of codes 1-8; a trapped SMC is one of its own. */
static enum exception exception_of(const struct block *block, const struct event *event)
{
    static const enum exception EXCEPTION[CODES] = {
        [CODE_UNDEFINED]      = UNDEFINED,
        [CODE_SVC]            = SVC,
        [CODE_SMC]            = SMC,
        [CODE_HVC]            = HVC,
        [CODE_PREFETCH_ABORT] = PREFETCH_ABORT,
        [CODE_DATA_ABORT]     = DATA_ABORT,
        [CODE_HYP_TRAP]       = HYP_TRAP,
        [CODE_MONITOR_TRAP]   = MONITOR_TRAP,
    };

    if (event->code == CODE_SMC && is_smc_trapped(block))
        return TRAPPED_SMC;
    return EXCEPTION[event->code];
}

/* Routing: "To Monitor". */
static bool goes_to_monitor(const struct block *block, const struct event *event,
                            enum exception exception)
{
    if (exception == SMC)
        return true;
    if (exception == MONITOR_TRAP)
        return true;
    return is_external(event) && is_one(block, SCR, SCR_EA);
}

/* No. 11: "A debug abort from Non-secure User or NS EL1 goes to Hyp, .. if HDCR.TDE (bit 8) is 1; else as before". */
static bool is_debug_to_hyp(const struct block *block, const struct event *event)
{
    if (is_secure(block) || mode_of(block) == MODE_HYP)
        return false;
    return is_debug(event) && is_one(block, HDCR, HDCR_TDE);
}

/* Routing: "To Hyp". */
static bool goes_to_hyp(const struct block *block, const struct event *event,
                        enum exception exception)
{
    const bool one_of_four = exception == UNDEFINED || exception == SVC ||
                             exception == PREFETCH_ABORT || exception == DATA_ABORT;

    if (exception == TRAPPED_SMC)
        return true;
    if (exception == HYP_TRAP)
        return true;
    if (exception == HVC)
        return true;
    if (one_of_four && mode_of(block) == MODE_HYP)
        return true;
    if (one_of_four && mode_of(block) == MODE_USER && !is_secure(block) &&
        is_one(block, HCR, HCR_TGE))
        return true;
    if (is_debug_to_hyp(block, event))
        return true;
    return is_stage_2(event);
}

/* Routing: "First fit, top down". */
static enum mode target_of(const struct block *block, const struct event *event,
                           enum exception exception)
{
    if (goes_to_monitor(block, event, exception))
        return MODE_MONITOR;
    if (goes_to_hyp(block, event, exception))
        return MODE_HYP;
    if (exception == UNDEFINED)
        return MODE_UNDEFINED;
    if (exception == SVC)
        return MODE_SUPERVISOR;
    return MODE_ABORT;
}

/* Routing: "Next address is PC + 2 for SVC with T 1, else PC + 4". */
static uint32_t next_address(const struct block *block, enum exception exception)
{
    if (exception == SVC && is_one(block, CPSR, CPSR_T))
        return block->word[PC] + 2;
    return block->word[PC] + 4;
}

/* Routing: "The preferred return". */
static uint32_t preferred_return(const struct block *block, enum exception exception)
{
    if (exception == SVC || exception == HVC || exception == SMC)
        return next_address(block, exception);
    return block->word[PC];
}

/* Routing: "Offsets". */
static const uint32_t OFFSET[EXCEPTIONS] = {
    [UNDEFINED]      = 0x04,
    [MONITOR_TRAP]   = 0x04,
    [SVC]            = 0x08,
    [SMC]            = 0x08,
    [HVC]            = 0x08,
    [PREFETCH_ABORT] = 0x0C,
    [DATA_ABORT]     = 0x10,
    [SERROR]         = 0x10,
    [HYP_TRAP]       = 0x14,
    [TRAPPED_SMC]    = 0x14,
    [IRQ]            = 0x18,
    [FIQ]            = 0x1C,
};

/* Routing: "Anything but IRQ and FIQ entering Hyp from another mode uses 0x14". */
static uint32_t offset_of(const struct block *block, enum exception exception,
                          enum mode target)
{
    if (target == MODE_HYP && mode_of(block) != MODE_HYP &&
        exception != IRQ && exception != FIQ)
        return 0x14;
    return OFFSET[exception];
}

/* Routing: what LR of the target adds with T 0 and T 1; the three not here enter Hyp alone. */
static const struct {
    uint32_t t0, t1;
} ADDEND[EXCEPTIONS] = {
    [UNDEFINED]      = { 4, 2 },
    [MONITOR_TRAP]   = { 4, 2 },
    [SVC]            = { 0, 0 },
    [SMC]            = { 0, 0 },
    [PREFETCH_ABORT] = { 4, 4 },
    [IRQ]            = { 4, 4 },
    [FIQ]            = { 4, 4 },
    [DATA_ABORT]     = { 8, 8 },
    [SERROR]         = { 8, 8 },
};

/* Routing: "LR of the target"; "Hyp writes ELR_hyp with nothing added". */
static uint32_t link_of(const struct block *block, enum exception exception,
                        enum mode target)
{
    const uint32_t address = preferred_return(block, exception);

    if (target == MODE_HYP)
        return address;
    if (is_one(block, CPSR, CPSR_T))
        return address + ADDEND[exception].t1;
    return address + ADDEND[exception].t0;
}

/* ---------------------------------------------------------------- Entry */

/* Entry: by target, where SPSR and link go, which a return (No. 9) takes, and "Masks set"; those of Hyp depend on SCR. */
static const struct {
    enum place spsr, link;
    uint32_t masks;
} ENTRY[] = {
    [MODE_MONITOR]    = { SPSR_mon, LR_mon,  CPSR_A | CPSR_I | CPSR_F },
    [MODE_FIQ]        = { SPSR_fiq, LR_fiq,  CPSR_A | CPSR_I | CPSR_F },
    [MODE_ABORT]      = { SPSR_abt, LR_abt,  CPSR_A | CPSR_I },
    [MODE_IRQ]        = { SPSR_irq, LR_irq,  CPSR_A | CPSR_I },
    [MODE_UNDEFINED]  = { SPSR_und, LR_und,  CPSR_I },
    [MODE_SUPERVISOR] = { SPSR_svc, LR_svc,  CPSR_I },
    [MODE_HYP]        = { SPSR_hyp, ELR_hyp, 0 },
};

/* Entry: "Hyp: A if EA 0, I if SCR.IRQ 0, F if SCR.FIQ 0". */
static uint32_t masks_of_hyp(const struct block *block)
{
    uint32_t masks = 0;

    if (!is_one(block, SCR, SCR_EA))
        masks |= CPSR_A;
    if (!is_one(block, SCR, SCR_IRQ))
        masks |= CPSR_I;
    if (!is_one(block, SCR, SCR_FIQ))
        masks |= CPSR_F;
    return masks;
}

/* Entry: "T and E take TE and EE of"; NS is already the value after entry. */
static enum place sctlr_of(const struct block *block, enum mode target)
{
    if (target == MODE_HYP)
        return HSCTLR;
    if (target == MODE_MONITOR)
        return SCTLR_S;
    return is_one(block, SCR, SCR_NS) ? SCTLR_NS : SCTLR_S;
}

/* Entry: "base is"; NS is already the value after entry. */
static uint32_t base_of(const struct block *block, enum mode target)
{
    uint32_t base;

    if (target == MODE_HYP)
        base = block->word[HVBAR];
    else if (target == MODE_MONITOR)
        base = block->word[MVBAR];
    else if (is_one(block, sctlr_of(block, target), SCTLR_V))
        base = 0xFFFF0000;
    else
        base = block->word[is_one(block, SCR, SCR_NS) ? VBAR_NS : VBAR_S];
    return with(base, 0x1F, false);
}

/* Entry: CPSR once the mode is set; bits not named stay. */
static uint32_t cpsr_of_entry(const struct block *block, enum mode target)
{
    const enum place sctlr = sctlr_of(block, target);
    const uint32_t masks = target == MODE_HYP ? masks_of_hyp(block) : ENTRY[target].masks;
    uint32_t cpsr = block->word[CPSR];

    cpsr = with(cpsr, CPSR_MODE, false) | target;
    cpsr = with(cpsr, CPSR_IT | CPSR_IL, false);
    cpsr = with(cpsr, masks, true);
    cpsr = with(cpsr, CPSR_T, is_one(block, sctlr, SCTLR_TE));
    cpsr = with(cpsr, CPSR_E, is_one(block, sctlr, SCTLR_EE));
    return cpsr;
}

/* Entry: the whole of it; gives the value. */
static uint32_t enter(struct block *block, enum which which,
                      enum exception exception, enum mode target)
{
    const uint32_t offset = offset_of(block, exception, target);
    const uint32_t link = link_of(block, exception, target);

    block->word[ENTRY[target].spsr] = block->word[CPSR];
    block->word[ENTRY[target].link] = link;
    if (mode_of(block) == MODE_MONITOR && target != MODE_HYP)
        block->word[SCR] = with(block->word[SCR], SCR_NS, false);
    block->word[CPSR] = cpsr_of_entry(block, target);
    block->word[PC] = base_of(block, target) + offset;
    return value_of_entry(which, target, offset);
}

/* Entry: that of codes 1-8; gives the value. */
static uint32_t enter_by_event(struct block *block, const struct event *event)
{
    const enum exception exception = exception_of(block, event);

    return enter(block, SYNCHRONOUS, exception, target_of(block, event, exception));
}

/* -------------------------------------------------- The interrupt check */

/* The interrupt check: the six in our order, with their controls. */
static const struct interrupt {
    enum which which;
    enum exception exception;
    enum mode mode;     /* if it goes neither to Monitor nor to Hyp */
    uint32_t line;      /* of A; 0 is none */
    uint32_t source, m; /* of HCR; 0 is none */
    uint32_t r, w;      /* of SCR; W of IRQ is no bit, see w_of */
    uint32_t mask;      /* of CPSR */
} INTERRUPTS[] = {
    { PHYSICAL_SERROR, SERROR, MODE_ABORT, LINE_SERROR, 0,      HCR_AMO, SCR_EA,  SCR_AW, CPSR_A },
    { PHYSICAL_FIQ,    FIQ,    MODE_FIQ,   LINE_FIQ,    0,      HCR_FMO, SCR_FIQ, SCR_FW, CPSR_F },
    { PHYSICAL_IRQ,    IRQ,    MODE_IRQ,   LINE_IRQ,    0,      HCR_IMO, SCR_IRQ, 0,      CPSR_I },
    { VIRTUAL_SERROR,  SERROR, MODE_ABORT, 0,           HCR_VA, HCR_AMO, 0,       0,      CPSR_A },
    { VIRTUAL_FIQ,     FIQ,    MODE_FIQ,   LINE_VFIQ,   HCR_VF, HCR_FMO, 0,       0,      CPSR_F },
    { VIRTUAL_IRQ,     IRQ,    MODE_IRQ,   LINE_VIRQ,   HCR_VI, HCR_IMO, 0,       0,      CPSR_I },
};

/* The interrupt check: how many there are. */
#define INTERRUPT_COUNT (sizeof INTERRUPTS / sizeof INTERRUPTS[0])

/* The interrupt check: the last three are virtual. */
static bool is_virtual(const struct interrupt *interrupt)
{
    return interrupt->which >= VIRTUAL_SERROR;
}

/* The interrupt check: "W is AW, FW, or for IRQ the value 1". */
static bool w_of(const struct block *block, const struct interrupt *interrupt)
{
    if (interrupt->which == PHYSICAL_IRQ)
        return true;
    return is_one(block, SCR, interrupt->w);
}

/* The interrupt check: the routing of a physical exception; a virtual one goes to its own mode. */
static enum mode target_of_interrupt(const struct block *block,
                                     const struct interrupt *interrupt)
{
    if (is_virtual(interrupt))
        return interrupt->mode;
    if (is_one(block, SCR, interrupt->r))
        return MODE_MONITOR;
    if (mode_of(block) == MODE_HYP)
        return MODE_HYP;
    if (!is_secure(block) &&
        (is_one(block, HCR, HCR_TGE) || is_one(block, HCR, interrupt->m)))
        return MODE_HYP;
    return interrupt->mode;
}

/* The interrupt check: the first column of the table, as sets of the three states there are. */
enum states {
    SECURE = 1,
    NOT_HYP = 2,
    HYP = 4,
    NON_SECURE = NOT_HYP | HYP
};

/* The interrupt check: a cell of the table that is neither 0 nor 1. */
#define ANY 2

/* The interrupt check: the last column of the table. */
enum mask_bit {
    IGNORED,
    OBEYED
};

/* The interrupt check: the table. */
static const struct {
    uint32_t states, m, r, w;
    enum mask_bit mask_bit;
} MASKING[7] = {
    { SECURE,     ANY, ANY, ANY, OBEYED  },
    { NON_SECURE, 0,   0,   ANY, OBEYED  },
    { NON_SECURE, 0,   1,   0,   IGNORED },
    { NON_SECURE, 0,   1,   1,   OBEYED  },
    { NOT_HYP,    1,   ANY, ANY, IGNORED },
    { HYP,        1,   0,   ANY, OBEYED  },
    { HYP,        1,   1,   ANY, IGNORED },
};

/* The interrupt check: which of the three states the block is in. */
static enum states state_of(const struct block *block)
{
    if (is_secure(block))
        return SECURE;
    return mode_of(block) == MODE_HYP ? HYP : NOT_HYP;
}

/* No. 5: "M in the masking table is the stored bit or TGE", in every row; nothing else asks for this M. */
static bool m_of_masking(const struct block *block, const struct interrupt *interrupt)
{
    return is_one(block, HCR, interrupt->m) || is_one(block, HCR, HCR_TGE);
}

/* The interrupt check: whether a cell of the table fits a bit. */
static bool fits(uint32_t cell, bool bit)
{
    return cell == ANY || cell == (uint32_t)bit;
}

/* The interrupt check: what the row that fits says; one and only one row fits. */
static enum mask_bit mask_bit_of(const struct block *block, const struct interrupt *interrupt)
{
    const uint32_t state = state_of(block);
    const bool m = m_of_masking(block, interrupt);
    const bool r = is_one(block, SCR, interrupt->r);
    const bool w = w_of(block, interrupt);

    for (uint32_t row = 0; row < 7; row++) {
        if ((MASKING[row].states & state) != 0 && fits(MASKING[row].m, m) &&
            fits(MASKING[row].r, r) && fits(MASKING[row].w, w))
            return MASKING[row].mask_bit;
    }
    return OBEYED; /* not reached: the seven rows leave nothing out */
}

/* The interrupt check: "pending"; No. 5: "Virtual exceptions stay off under TGE", so M is the stored bit. */
static bool is_pending(const struct block *block, const struct interrupt *interrupt,
                       uint32_t lines)
{
    const bool line = (lines & interrupt->line) != 0;

    if (!is_virtual(interrupt))
        return line;
    if (is_secure(block) || mode_of(block) == MODE_HYP)
        return false;
    return !is_one(block, HCR, HCR_TGE) && is_one(block, HCR, interrupt->m) &&
           (is_one(block, HCR, interrupt->source) || line);
}

/* The interrupt check: "takeable"; a virtual one always obeys its mask bit. */
static bool is_takeable(const struct block *block, const struct interrupt *interrupt,
                        uint32_t lines)
{
    if (!is_pending(block, interrupt, lines))
        return false;
    if (!is_one(block, CPSR, interrupt->mask))
        return true;
    return !is_virtual(interrupt) && mask_bit_of(block, interrupt) == IGNORED;
}

/* The interrupt check: "Taking virtual SError clears HCR.VA; VF and VI stay"; gives the value. */
static uint32_t take(struct block *block, const struct interrupt *interrupt)
{
    const uint32_t value = enter(block, interrupt->which, interrupt->exception,
                                 target_of_interrupt(block, interrupt));

    if (interrupt->which == VIRTUAL_SERROR)
        block->word[HCR] = with(block->word[HCR], HCR_VA, false);
    return value;
}

/* The interrupt check: "The first one takeable is taken, one per check"; gives the value. */
static uint32_t check_interrupts(struct block *block, uint32_t lines)
{
    for (size_t i = 0; i < INTERRUPT_COUNT; i++) {
        if (is_takeable(block, &INTERRUPTS[i], lines))
            return take(block, &INTERRUPTS[i]);
    }
    return 0;
}

/* ----------------------------------------------- Banked-register rights */

/* Banked-register rights: Table F5-116 (R 0); rows SYSm<2:0>, columns SYSm<4:3>. */
static const uint8_t TABLE_F5_116[8][4] = {
    /*          0b00     0b01     0b10    0b11    */
    /* 000 */ { R8_usr,  R8_fiq,  LR_irq, NONE    },
    /* 001 */ { R9_usr,  R9_fiq,  SP_irq, NONE    },
    /* 010 */ { R10_usr, R10_fiq, LR_svc, NONE    },
    /* 011 */ { R11_usr, R11_fiq, SP_svc, NONE    },
    /* 100 */ { R12_usr, R12_fiq, LR_abt, LR_mon  },
    /* 101 */ { SP_usr,  SP_fiq,  SP_abt, SP_mon  },
    /* 110 */ { LR_usr,  LR_fiq,  LR_und, ELR_hyp },
    /* 111 */ { NONE,    NONE,    SP_und, SP_hyp  },
};

/* Banked-register rights: Table F5-117 (R 1); rows SYSm<2:0>, columns SYSm<4:3>. */
static const uint8_t TABLE_F5_117[8][4] = {
    /*          0b00  0b01      0b10      0b11     */
    /* 000 */ { NONE, NONE,     SPSR_irq, NONE     },
    /* 001 */ { NONE, NONE,     NONE,     NONE     },
    /* 010 */ { NONE, NONE,     SPSR_svc, NONE     },
    /* 011 */ { NONE, NONE,     NONE,     NONE     },
    /* 100 */ { NONE, NONE,     SPSR_abt, SPSR_mon },
    /* 101 */ { NONE, NONE,     NONE,     NONE     },
    /* 110 */ { NONE, SPSR_fiq, SPSR_und, SPSR_hyp },
    /* 111 */ { NONE, NONE,     NONE,     NONE     },
};

/* Banked-register rights: the place of the register that A (0-63) names, or NONE. */
static uint32_t register_of(const struct event *event)
{
    const uint32_t r = event->a >> 5;
    const uint32_t row = event->a & 7;
    const uint32_t column = event->a >> 3 & 3;

    return r == 0 ? TABLE_F5_116[row][column] : TABLE_F5_117[row][column];
}

/*
 * Banked-register rights: "Allowed unless"; No. 10: 7 "for User mode and for registers not accessible from the current state",
 * 17 where "the current mode could reach the register by another instruction".  Hyp is allowed ELR_hyp, which is never 17.
 */
static const struct {
    enum place first, last; /* the registers at these places */
    uint32_t modes;         /* not from these modes */
    bool non_secure;        /* nor from Non-secure, if true */
    enum number number;     /* but with this number */
} NOT_ALLOWED[] = {
    { R8_usr,   SPSR_hyp, ONLY(MODE_USER),                              false, NO_RIGHT     },
    { R8_usr,   R12_usr,  ALL_BUT(ONLY(MODE_FIQ)),                      false, OWN_REGISTER },
    { SP_usr,   SP_usr,   ONLY(MODE_SYSTEM),                            false, OWN_REGISTER },
    { LR_usr,   LR_usr,   ONLY(MODE_SYSTEM) | ONLY(MODE_HYP),           false, OWN_REGISTER },
    { R8_fiq,   LR_fiq,   ONLY(MODE_FIQ),                               false, OWN_REGISTER },
    { SPSR_fiq, SPSR_fiq, ONLY(MODE_FIQ),                               false, OWN_REGISTER },
    { LR_irq,   SP_irq,   ONLY(MODE_IRQ),                               false, OWN_REGISTER },
    { SPSR_irq, SPSR_irq, ONLY(MODE_IRQ),                               false, OWN_REGISTER },
    { LR_svc,   SP_svc,   ONLY(MODE_SUPERVISOR),                        false, OWN_REGISTER },
    { SPSR_svc, SPSR_svc, ONLY(MODE_SUPERVISOR),                        false, OWN_REGISTER },
    { LR_abt,   SP_abt,   ONLY(MODE_ABORT),                             false, OWN_REGISTER },
    { SPSR_abt, SPSR_abt, ONLY(MODE_ABORT),                             false, OWN_REGISTER },
    { LR_und,   SP_und,   ONLY(MODE_UNDEFINED),                         false, OWN_REGISTER },
    { SPSR_und, SPSR_und, ONLY(MODE_UNDEFINED),                         false, OWN_REGISTER },
    { LR_mon,   SP_mon,   NO_MODE,                                      true,  NO_RIGHT     },
    { LR_mon,   SP_mon,   ONLY(MODE_MONITOR),                           false, OWN_REGISTER },
    { SPSR_mon, SPSR_mon, NO_MODE,                                      true,  NO_RIGHT     },
    { SPSR_mon, SPSR_mon, ONLY(MODE_MONITOR),                           false, OWN_REGISTER },
    { ELR_hyp,  ELR_hyp,  ALL_BUT(ONLY(MODE_MONITOR) | ONLY(MODE_HYP)), false, NO_RIGHT     },
    { SP_hyp,   SP_hyp,   ALL_BUT(ONLY(MODE_MONITOR) | ONLY(MODE_HYP)), false, NO_RIGHT     },
    { SP_hyp,   SP_hyp,   ONLY(MODE_HYP),                               false, OWN_REGISTER },
    { SPSR_hyp, SPSR_hyp, ALL_BUT(ONLY(MODE_MONITOR) | ONLY(MODE_HYP)), false, NO_RIGHT     },
    { SPSR_hyp, SPSR_hyp, ONLY(MODE_HYP),                               false, OWN_REGISTER },
};

/* Banked-register rights: how many rows say no. */
#define NOT_ALLOWED_COUNT (sizeof NOT_ALLOWED / sizeof NOT_ALLOWED[0])

/* Banked-register rights: whether a row with this number says no; allowed where none does with either. */
static bool is_denied(const struct block *block, uint32_t place, enum number number)
{
    for (size_t i = 0; i < NOT_ALLOWED_COUNT; i++) {
        if (NOT_ALLOWED[i].number != number)
            continue;
        if (place < NOT_ALLOWED[i].first || place > NOT_ALLOWED[i].last)
            continue;
        if (is_in(mode_of(block), NOT_ALLOWED[i].modes))
            return true;
        if (NOT_ALLOWED[i].non_secure && !is_secure(block))
            return true;
    }
    return false;
}

/* ----------------------------------------------------------- The return */

/* No. 9: "User and System have none". */
static bool has_saved_word(const struct block *block)
{
    return is_in(mode_of(block), ALL_BUT(ONLY(MODE_USER) | ONLY(MODE_SYSTEM)));
}

/* No. 9: "The saved word is the current mode's SPSR"; asked only of a mode that has one. */
static uint32_t saved_word(const struct block *block)
{
    return block->word[ENTRY[mode_of(block)].spsr];
}

/* No. 9: "From Hyp ... A must be 0.  Elsewhere ... A one of 0, 2, 4, 8", in User and System too. */
static bool is_taken_off(const struct block *block, uint32_t a)
{
    if (mode_of(block) == MODE_HYP)
        return a == 0;
    return a == 0 || a == 2 || a == 4 || a == 8;
}

/* The modelled core: "EL0 to EL3". */
enum level {
    EL0, EL1, EL2, EL3
};

/* No. 9: the Exception level of a mode; since EL3 uses AArch32, Secure modes other than User stand there. */
static enum level level_of(const struct block *block, uint32_t mode)
{
    if (mode == MODE_MONITOR)
        return EL3;
    if (mode == MODE_HYP)
        return EL2;
    if (mode == MODE_USER)
        return EL0;
    return is_one(block, SCR, SCR_NS) ? EL1 : EL3;
}

/* No. 9: "a reserved mode", that is, none of the nine; with bit 4 clear, each. */
static bool is_reserved_mode(uint32_t mode)
{
    return !is_in(mode, ALL_NINE);
}

/* No. 9: "a higher Exception level", than that of the current mode. */
static bool is_higher_level(const struct block *block, uint32_t mode)
{
    return level_of(block, mode) > level_of(block, mode_of(block));
}

/* No. 9: "Hyp with NS 0". */
static bool is_hyp_with_ns_0(const struct block *block, uint32_t mode)
{
    return mode == MODE_HYP && !is_one(block, SCR, SCR_NS);
}

/* No. 9: "Non-secure EL1 with TGE 1", by NS alone: from Monitor with NS 1 too. */
static bool is_ns_el1_with_tge_1(const struct block *block, uint32_t mode)
{
    return is_in(mode, EL1_MODES) && is_one(block, SCR, SCR_NS) && is_one(block, HCR, HCR_TGE);
}

/* No. 9: "Illegal returns are by the manual's list": a return to this mode, the saved word's. */
static bool is_illegal(const struct block *block, uint32_t mode)
{
    if (is_reserved_mode(mode))
        return true;
    if (is_higher_level(block, mode))
        return true;
    if (is_hyp_with_ns_0(block, mode))
        return true;
    return is_ns_el1_with_tge_1(block, mode);
}

/* No. 9: "Legal returns set CPSR to the saved word"; illegal: "the mode stays, IL becomes 1, the other fields" as legal. */
static uint32_t cpsr_of_return(const struct block *block)
{
    const uint32_t saved = saved_word(block);

    if (!is_illegal(block, saved & CPSR_MODE))
        return saved;
    return with(saved, CPSR_MODE, false) | mode_of(block) | CPSR_IL;
}

/* No. 9: "the address is ELR_hyp", from Hyp, with A 0; "Elsewhere it is the mode's LR less A", "wrapping". */
static uint32_t address_of_return(const struct block *block, uint32_t a)
{
    return block->word[ENTRY[mode_of(block)].link] - a;
}

/* No. 9: "PC to the address with its lowest bit cleared if T is 1, else its lowest two"; T is the saved word's, always. */
static uint32_t pc_of_return(const struct block *block, uint32_t a)
{
    const bool t = (saved_word(block) & CPSR_T) != 0;

    return with(address_of_return(block, a), t ? 1 : 3, false);
}

/* No. 9: the whole of it; "A done return has value 0". */
static uint32_t perform_return(struct block *block, uint32_t a)
{
    const uint32_t cpsr = cpsr_of_return(block);
    const uint32_t pc = pc_of_return(block, a);

    block->word[CPSR] = cpsr;
    block->word[PC] = pc;
    return 0;
}

/* ---------------------------------------------------------- The layouts */

/* No. 13: "lines 8 and 16 of event 9", one of them or both, whatever other line is set. */
static bool has_virtual_line(const struct event *event)
{
    return event->code == CODE_INTERRUPT_CHECK && (event->a & (LINE_VFIQ | LINE_VIRQ)) != 0;
}

/*
 * No. 11: "Kinds 1 and 2 are still read, with HDCR 0, and there debug and notes on place 44 are BAD_EVENT".  No. 13:
 * "For Start kind 4, and for every direct step, lines 8 and 16 of event 9 become BAD_EVENT"; kind 1 keeps "both lines".
 */
static bool is_unknown_in(enum layout layout, const struct event *event)
{
    if (layout == OLD_LAYOUT)
        return is_debug(event) || (event->code == CODE_NOTE && event->a == HDCR);
    return has_virtual_line(event);
}

/* No. 11: the event by the rules of a layout: one that it does not know has no code.  No other rule asks for it. */
static struct event event_in(enum layout layout, struct event event)
{
    static const uint32_t NO_CODE = 0;

    if (is_unknown_in(layout, &event))
        event.code = NO_CODE;
    return event;
}

/* ------------------------------------------------------------- The step */

/* Answer numbers: what an event not refused does to the block; gives the value. */
static uint32_t act(struct block *block, const struct event *event)
{
    switch (event->code) {
    case CODE_INTERRUPT_CHECK:
        return check_interrupts(block, event->a);
    case CODE_BANKED_READ:
        return block->word[register_of(event)];
    case CODE_BANKED_WRITE:
        block->word[register_of(event)] = event->b;
        return 0;
    case CODE_NOTE:
        block->word[event->a] = event->b;
        return 0;
    case CODE_RETURN:
        return perform_return(block, event->a);
    default:
        return enter_by_event(block, event);
    }
}

/* No. 11: the step "by the rules that hold for that layout". */
uint32_t second_step_in(enum layout layout, uint8_t *block, uint32_t code, uint32_t a, uint32_t b, uint8_t *answer)
{
    const struct event event = event_in(layout, (struct event){ code, a, b });
    struct block words = read_block(block);
    enum number number = refusal_of(&words, &event);
    uint32_t value = 0;

    if (number == DONE)
        value = act(&words, &event);

    /* "A note is then tested on the block it would make"; its value is 0 either way. */
    if (number == DONE && event.code == CODE_NOTE)
        number = refusal_of_block(&words);

    if (number == DONE)
        write_block(block, &words);
    put_word(answer, number);
    put_word(answer + 4, value);
    return number;
}

/* Answer numbers: the block, the event and an 8-byte answer buffer; No. 11: "180 bytes"; No. 13: as "Start kind 4". */
uint32_t second_step(uint8_t *block, size_t block_len,
                     uint32_t code, uint32_t a, uint32_t b,
                     uint8_t *answer, size_t answer_len)
{
    if (block_len != BLOCK_SIZE || answer_len != ANSWER_SIZE)
        return BAD_SIZE;
    return second_step_in(NEW_LAYOUT, block, code, a, b, answer);
}
