/*
 * What a comparison of steps met, and how often: numbers, entries and the ways
 * to them, calls by the bits that decide them, debug aborts by what decides them,
 * virtual exceptions by the bits that decide them, lines that are retired,
 * returns, legal and illegal, by what decides them, operands at the ends of their
 * ranges, notes refused for the block they would make, and every right to a
 * banked register.
 */
#ifndef MET_H
#define MET_H

#include "numbers.h"
#include "question.h"

#include "../second/words.h"

enum {
    WHICH_COUNT = 7,
    MODE_NUMBERS = 32,
    ROWS = 7, /* of the masking table (document 01, "The interrupt check") */
    BITS = 32,
    CELLS = 64
};

/* Ways of an entry to Monitor or Hyp that hang on more than the code. */
enum way {
    SMC_BY_TSC,
    PREFETCH_ABORT_BY_EA, DATA_ABORT_BY_EA, STAGE_2_BY_EA,
    STAGE_2_TO_HYP,
    UNDEFINED_BY_TGE, SVC_BY_TGE, PREFETCH_ABORT_BY_TGE, DATA_ABORT_BY_TGE, INTERRUPT_BY_TGE,
    DEBUG_TO_HYP,
    WAYS
};

/* SMC and HVC, from where, by the bits that decide them, and what came of it. */
enum call_kind {
    CALL_SMC, CALL_HVC,
    CALL_KINDS
};
enum caller {
    FROM_USER, FROM_MONITOR, FROM_SECURE, FROM_NS_EL1, FROM_HYP, /* Secure: any other mode with NS 0 */
    CALLERS
};
enum call_bits {
    WITH_HCE = 1, WITH_SCD = 2, WITH_TSC = 4,
    CALL_BITS = 8
};
enum call_end {
    CALL_NOT_HERE, CALL_TAKEN, CALL_TRAPPED, CALL_DISABLED,
    CALL_ENDS
};

/* A debug abort, and where it leads: to Abort; to Hyp from another mode, at 0x14; from Hyp itself. */
enum debug_end {
    DEBUG_ABORT, DEBUG_HYP, DEBUG_IN_HYP,
    DEBUG_ENDS
};

/* A Prefetch Abort that says more than debug: with 1, 2 or both. */
enum { BESIDE_DEBUG = 4 };

/* A virtual exception, where it can be pending and nothing goes before it, by the bits that decide it (No. 13: no line does). */
enum virtual {
    VIRTUAL_SERROR, VIRTUAL_FIQ, VIRTUAL_IRQ,
    VIRTUALS
};
enum virtual_bits {
    WITH_M = 1, WITH_SOURCE = 2, WITH_MASK = 4, /* AMO, FMO, IMO; VA, VF, VI; A, F, I */
    VIRTUAL_BITS = 8
};
enum virtual_end {
    VIRTUAL_NOT_TAKEN, VIRTUAL_TAKEN,
    VIRTUAL_ENDS
};

/* A check with virtual lines, which are retired: either, or both; beside every combination of the others. */
enum retired {
    RETIRED_FIQ, RETIRED_IRQ, RETIRED_BOTH,
    RETIRED
};
enum {
    OTHER_LINES = LINE_VFIQ
};
enum retired_end {
    LINE_REFUSED, LINE_KNOWN,
    LINE_ENDS
};

/* A done return; and what its operands alone come to: A of 0 to 9, each, any that is larger, and a right A with a B. */
enum return_end {
    LEGAL, ILLEGAL,
    RETURN_ENDS
};
enum {
    LARGER_A = 10, WITH_B,
    RETURN_OPERANDS
};
enum operand_end {
    OPERAND_DONE, OPERAND_BAD_EVENT, OPERAND_NOT_HERE,
    OPERAND_ENDS
};

/* The bits that a saved word may not have, 24-21; and what they go before where that is wrong too. */
enum {
    FIRST_SAVED_BIT = 21,
    SAVED_BITS = 4
};
enum wrong_operand {
    WRONG_A, WRONG_B,
    WRONG_OPERANDS
};

/* Returns on good blocks. */
struct returns_met {
    unsigned long to[MODE_NUMBERS][2][2][MODE_NUMBERS][RETURN_ENDS]; /* by mode, NS, TGE, and the mode of the saved word */
    unsigned long fields[RETURN_ENDS][2][2];  /* by IL of the saved word, and whether it has IT bits */
    unsigned long address[RETURN_ENDS][2][4]; /* by T, and the lowest two bits of the address */
    unsigned long wrapped[LARGER_A];          /* by A: less than that was in LR */
    unsigned long operand[MODE_NUMBERS][RETURN_OPERANDS][OPERAND_ENDS]; /* by mode; the saved word is not at fault */
    unsigned long bit[MODE_NUMBERS][SAVED_BITS]; /* BAD_STATE: the saved word has this bit alone of the four */
    unsigned long before[WRONG_OPERANDS];        /* BAD_STATE: this operand is wrong too */
};

/* The words by which a note can spoil a block, and what is then wrong with it. */
enum steering_word {
    BY_CPSR, BY_SCR, BY_HCR,
    STEERING_WORDS
};
enum fault {
    NO_MODE, BITS_24_TO_21, HYP_WITHOUT_NS, EL1_UNDER_TGE,
    FAULTS
};

/* A banked access, and what it comes to. */
enum access {
    BANKED_READ, BANKED_WRITE,
    ACCESSES
};
enum right {
    ALLOWED, DENIED, OWN, EMPTY,
    RIGHTS
};

/* How often each thing was met. */
struct met {
    unsigned long steps, done;
    unsigned long number[STEP_NUMBERS];
    unsigned long judged[CODES][MODE_NUMBERS]; /* by code and mode: good block, known event */
    unsigned long target[MODE_NUMBERS];
    unsigned long ns_cleared[MODE_NUMBERS]; /* by target */
    unsigned long high[MODE_NUMBERS][2];    /* by target and NS after: vectors at 0xFFFF0000 */
    unsigned long which[WHICH_COUNT];
    unsigned long way[WAYS + 1];
    unsigned long call[CALL_KINDS][CALLERS][CALL_BITS][CALL_ENDS];
    unsigned long debug[MODE_NUMBERS][2][2][2][DEBUG_ENDS]; /* by mode, NS, TGE and TDE */
    unsigned long beside_debug[BESIDE_DEBUG];               /* by what stands beside it: BAD_EVENT */
    unsigned long note_on_hdcr[2];                          /* by TDE before: done, and TDE changes */
    struct returns_met returns;
    unsigned long nothing_taken;
    unsigned long virtual[VIRTUALS][VIRTUAL_BITS][VIRTUAL_ENDS];
    unsigned long retired[RETIRED][OTHER_LINES][LINE_ENDS]; /* on a good block: BAD_EVENT, or another number */
    unsigned long row[ROWS]; /* an exception is pending, its mask bit is 1, the row decides */
    unsigned long by_tge_alone[ROWS]; /* the same, M being 1 by TGE and not by its own bit */
    unsigned long largest[CODES], above[CODES]; /* by code: A at its largest, and one above */
    unsigned long b_bit[CODES][BITS];           /* by code: B is this bit alone */
    unsigned long spoilt[STEERING_WORDS][FAULTS]; /* a refused note: this fault alone */
    unsigned long right[CELLS][MODE_NUMBERS][2][RIGHTS][ACCESSES]; /* by A, mode and NS */
};

extern struct met met;

/* Counts a question that both sides answered so. */
void count_step(const struct question *question, const struct call *call);

#endif
