/*
 * pomurica.h: the exception rules of an Arm core on which all four Exception
 * levels use AArch32, one step at a time, a checker of traces of steps, and the
 * instruction words of banked accesses.  C11 and C++11.
 *
 * A state block of 180 bytes holds the core's banked and system registers, an
 * event is something that happens to it, and a step says what the core does.
 * A trace is what a unit records of its steps; the checker accepts it exactly
 * when the rules can have made it.
 *
 * A trace has one of two layouts, which its Start tells by its kind.  The new
 * one has blocks of 180 bytes.  The old one, of units without self-hosted debug,
 * has blocks of 176: they lack the last word, HDCR, which counts as 0, and a
 * debug abort and a note on HDCR are no events there.  Only there has an
 * interrupt check lines for virtual interrupts; in the new layout HCR.VF and
 * HCR.VI alone signal a guest.  What has a plain name here is of the new layout;
 * POMURICA_OLD_ names the same of the old one.  pomurica_check, a session,
 * pomurica_explain and pomurica_count take traces of both.  pomurica_step and
 * pomurica_batch take blocks of 180 bytes alone, and pomurica_record takes such a
 * block and writes the new layout: all three go by the rules of the new one.
 *
 * The thirteen functions are proved: for every input they return, give the one
 * answer that the rules give, and write nothing but what is said here.  They
 * keep nothing between calls, take no memory and may be called from several
 * threads, each with buffers of its own.  A buffer of bytes may lie at any
 * address: it is read and written as bytes, and needs no alignment.
 *
 * The archive is x86-64 code for Linux: ELF, the System V calling convention,
 * position independent, for any x86-64 processor.  It defines the thirteen
 * functions and no other name, calls nothing but the C library's memcpy, memmove
 * and memset, and stands behind the objects that use it.  Of a release, and of
 * the project after `rt lib --cpu=x86-64` in crates/console:
 *
 *     cc program.c $(pkg-config --cflags --libs pomurica)
 *     cc -I host program.c crates/console/out/libconsole.a
 *
 * Outside the proof, and so up to the caller:
 *   - a pointer and its length name memory that is there.  A length of 0 goes
 *     with any pointer, NULL among them; NULL with a length above 0 does not.
 *     A pointer to a session, which has no length, is never NULL;
 *   - the buffers of one call, a session among them, do not overlap, and nobody else writes them
 *     while the call runs;
 *   - the small inline functions of this header, which are plain C.
 */
#ifndef POMURICA_H
#define POMURICA_H

#include <stddef.h>
#include <stdint.h>

#ifdef __cplusplus
extern "C" {
#endif

/*
 * The version of this header, and the same as a number: the document of the rules
 * in bits 23-16, the last request that has landed in bits 15-8 (as have all
 * before it), and in bits 7-0 which release of these rules it is.
 */
#define POMURICA_VERSION "1.14.0"
#define POMURICA_EDITION UINT32_C(0x00010E00)

/* Sizes in bytes. */
enum {
    POMURICA_BLOCK_SIZE = 180,
    POMURICA_OLD_BLOCK_SIZE = 176,
    POMURICA_ANSWER_SIZE = 8,
    POMURICA_REPORT_SIZE = 12,
    POMURICA_EXPLANATION_SIZE = 24,
    POMURICA_COUNTS_SIZE = 512,
    POMURICA_LINES_SIZE = 2048, /* room that is enough for the lines of any counts */
    POMURICA_PARTS_SIZE = 16,
    POMURICA_WORD_SIZE = 4,
    POMURICA_START_SIZE = 188,
    POMURICA_OLD_START_SIZE = 184,
    POMURICA_STEP_SIZE = 204,
    POMURICA_OLD_STEP_SIZE = 200,
    POMURICA_END_SIZE = 8, /* in both layouts */
    POMURICA_RECORD_SIZE = POMURICA_STEP_SIZE /* room for any record of either layout */
};

/*
 * A trace is one Start, n Steps and one End, without a gap.  Each record is
 * little-endian words, and its first is its head: its own length in bytes in
 * bits 15-0, its kind in bits 31-16.  Start and Steps are of one layout; a trace
 * that mixes the two is POMURICA_BAD_RECORD at the record that is not due.
 */
enum pomurica_kind {
    POMURICA_KIND_START = 4,
    POMURICA_OLD_KIND_START = 1,
    POMURICA_KIND_STEP = 5,
    POMURICA_OLD_KIND_STEP = 2,
    POMURICA_KIND_END = 3
};

/* The heads: what a record's first word is. */
#define POMURICA_START_HEAD UINT32_C(0x000400BC)
#define POMURICA_OLD_START_HEAD UINT32_C(0x000100B8)
#define POMURICA_STEP_HEAD UINT32_C(0x000500CC)
#define POMURICA_OLD_STEP_HEAD UINT32_C(0x000200C8)
#define POMURICA_END_HEAD UINT32_C(0x00030008)

/* Where the words of a record lie, counted in words from 0, in both layouts. */
enum pomurica_record_word {
    POMURICA_RECORD_HEAD = 0,
    POMURICA_RECORD_COUNT = 1, /* of a Start and of an End: n, at most 65,535 */
    POMURICA_START_BLOCK = 2,  /* the block before the first Step, 45 words, old 44; it need not be good */
    POMURICA_STEP_CODE = 1,    /* the event */
    POMURICA_STEP_A = 2,
    POMURICA_STEP_B = 3,
    POMURICA_STEP_NUMBER = 4,  /* its answer */
    POMURICA_STEP_VALUE = 5,
    POMURICA_STEP_BLOCK = 6    /* the block after it, 45 words, old 44 */
};

/* The most Steps that a trace may have. */
#define POMURICA_MOST_STEPS 65535

/* The bytes of the longest trace of a layout: 13,369,336, in the old one 13,107,192. */
#define POMURICA_LONGEST_TRACE \
    (POMURICA_START_SIZE + POMURICA_MOST_STEPS * POMURICA_STEP_SIZE + POMURICA_END_SIZE)
#define POMURICA_OLD_LONGEST_TRACE \
    (POMURICA_OLD_START_SIZE + POMURICA_MOST_STEPS * POMURICA_OLD_STEP_SIZE + POMURICA_END_SIZE)

/* The bytes of a trace of n Steps, n at most POMURICA_MOST_STEPS: 196 + 204 * n, in the old layout 192 + 200 * n. */
#define POMURICA_TRACE_SIZE(n) \
    (POMURICA_START_SIZE + (size_t)(n) * POMURICA_STEP_SIZE + POMURICA_END_SIZE)
#define POMURICA_OLD_TRACE_SIZE(n) \
    (POMURICA_OLD_START_SIZE + (size_t)(n) * POMURICA_OLD_STEP_SIZE + POMURICA_END_SIZE)

/*
 * Answer numbers: 0 to 7, 16 and 17 of a step; 0, 1 and 8 to 12 of the checker,
 * of an explanation and of a closing, and with 13 of a count; 0, 9 to 12 and 14
 * of a feeding; 0, 1 and 15 of the lines of counts; 0, 1, 10 and 15 of a
 * recording; 0, 1 and 18 of an instruction word, read or written; 0 and 1 of a
 * batch; 0 of an opening.  (Of a session that was opened: in another one any
 * number may stand as its fault.)
 */
enum pomurica_number {
    POMURICA_DONE = 0,        /* the step was done; the trace is accepted */
    POMURICA_BAD_SIZE = 1,    /* a buffer has not its size; nothing was written */
    POMURICA_BAD_MODE = 2,    /* the mode of CPSR is not one of the nine */
    POMURICA_BAD_STATE = 3,   /* CPSR bits 24-21, of a return the SPSR's too, Hyp with NS 0, or Non-secure EL1 with TGE 1 */
    POMURICA_BAD_EVENT = 4,   /* unknown code, or an operand out of its range */
    POMURICA_NOT_HERE = 5,    /* the event cannot happen in this mode and state, as a return in User or System */
    POMURICA_NO_REGISTER = 6, /* banked access: no register has this number */
    POMURICA_NO_RIGHT = 7,    /* banked access: from User, or to a register that is not accessible from this mode and state */
    POMURICA_SHORT = 8,       /* the trace ends before the record due */
    POMURICA_BAD_RECORD = 9,  /* length or kind not of the record due */
    POMURICA_BAD_COUNT = 10,  /* more than 65,535 Steps, or Start and End differ */
    POMURICA_WRONG_STEP = 11, /* not what the rules give from the block before */
    POMURICA_TRAILING = 12,   /* bytes behind the End */
    POMURICA_FULL = 13,       /* counting: a count would pass 4,294,967,295; nothing was counted */
    POMURICA_CLOSED = 14,     /* feeding: the session was closed before; nothing was changed */
    POMURICA_NO_ROOM = 15,    /* the room is too small for what is to be written; nothing was written */
    POMURICA_DISABLED = 16,   /* SMC with SCR.SCD 1, HVC with SCR.HCE 0: on the core Undefined, code 1 */
    POMURICA_OWN_REGISTER = 17, /* banked access: to the mode's own register, which it reaches by another instruction */
    POMURICA_NOT_BANKED = 18  /* no instruction word of a banked access, or no parts of one */
};

/*
 * Event codes.  An event is a code and two operands, A and B, which are 0
 * where none is named here.
 */
enum pomurica_code {
    POMURICA_EVENT_UNDEFINED = 1,
    POMURICA_EVENT_SVC = 2,
    POMURICA_EVENT_SMC = 3, /* refused with POMURICA_DISABLED while SCR.SCD is 1, unless HCR.TSC traps it */
    POMURICA_EVENT_HVC = 4, /* refused with POMURICA_DISABLED while SCR.HCE is 0 */
    POMURICA_EVENT_PREFETCH_ABORT = 5,  /* A: enum pomurica_abort, added up, or POMURICA_ABORT_DEBUG alone */
    POMURICA_EVENT_DATA_ABORT = 6,      /* A: enum pomurica_abort, added up */
    POMURICA_EVENT_HYP_TRAP = 7,
    POMURICA_EVENT_MONITOR_TRAP = 8,
    POMURICA_EVENT_INTERRUPT_CHECK = 9, /* A: enum pomurica_line, added up; no virtual one but in an old trace */
    POMURICA_EVENT_BANKED_READ = 10,    /* A: 32 * R + SYSm of the MRS instruction, 0 to 63 */
    POMURICA_EVENT_BANKED_WRITE = 11,   /* A: 32 * R + SYSm of the MSR instruction; B: the new word */
    POMURICA_EVENT_NOTE = 12,           /* ordinary code changed a word.  A: its place; B: the new word */
    POMURICA_EVENT_RETURN = 13          /* exception return.  A: what is taken off LR, 0, 2, 4 or 8; from Hyp 0 */
};

/*
 * An exception return takes the saved word, the current mode's SPSR, and an
 * address: from Hyp ELR_hyp, elsewhere the mode's LR less A, wrapping.  User and
 * System have no SPSR.  PC becomes the address, with its lowest bit cleared where
 * T of the saved word is 1, else its lowest two.  CPSR becomes the saved word
 * where the return is legal.  It is illegal where the mode of the saved word is
 *   - none of the nine;
 *   - of a higher Exception level than the current mode: User is at 0, Hyp at 2,
 *     Monitor at 3, any other mode at 1 with NS 1 and at 3 with NS 0;
 *   - Hyp, with NS 0;
 *   - FIQ, IRQ, Supervisor, Abort, Undefined or System, with NS 1 and TGE 1.
 * Then the mode stays, IL becomes 1, and the rest is as in a legal one: an illegal
 * return is done too.  From a good block a return is refused, by the first of
 * these that applies, with POMURICA_BAD_STATE where any of bits 24-21 of the saved
 * word is set, with POMURICA_BAD_EVENT for another A or a B, and with
 * POMURICA_NOT_HERE in User and System.
 */

/* A of an abort. */
enum pomurica_abort {
    POMURICA_ABORT_EXTERNAL = 1,
    POMURICA_ABORT_STAGE_2 = 2,
    POMURICA_ABORT_DEBUG = 4 /* of a Prefetch Abort alone, and with neither of the others: a breakpoint instruction */
};

/*
 * A of an interrupt check: the lines that are set.  The two virtual ones stand in
 * traces of the old layout alone, which are judged with them.  In the new layout,
 * and by pomurica_step, pomurica_batch and pomurica_record, a check with either
 * is refused with POMURICA_BAD_EVENT, whatever else A has: there a virtual FIQ is
 * brought by HCR.VF, and a virtual IRQ by HCR.VI.  A note on HCR sets the bit, and
 * a check takes the interrupt, also one without a line, unless another exception
 * goes before it.  (As ever that is in Non-secure User or EL1, with HCR.TGE 0, its
 * HCR.FMO or HCR.IMO 1, and its mask bit 0.)
 */
enum pomurica_line {
    POMURICA_LINE_SERROR = 1,
    POMURICA_LINE_FIQ = 2,
    POMURICA_LINE_IRQ = 4,
    POMURICA_ALL_LINES = 7,         /* the most that A may be */
    POMURICA_LINE_VIRTUAL_FIQ = 8,  /* in the old layout, where it does what HCR.VF does */
    POMURICA_LINE_VIRTUAL_IRQ = 16, /* in the old layout, where it does what HCR.VI does */
    POMURICA_OLD_ALL_LINES = 31
};

/* Modes: CPSR bits 4-0. */
enum pomurica_mode {
    POMURICA_MODE_USER = 0x10,
    POMURICA_MODE_FIQ = 0x11,
    POMURICA_MODE_IRQ = 0x12,
    POMURICA_MODE_SUPERVISOR = 0x13,
    POMURICA_MODE_MONITOR = 0x16,
    POMURICA_MODE_ABORT = 0x17,
    POMURICA_MODE_HYP = 0x1A,
    POMURICA_MODE_UNDEFINED = 0x1B,
    POMURICA_MODE_SYSTEM = 0x1F
};

/* Places of the block: word p lies in bytes 4 * p to 4 * p + 3, little-endian. */
enum pomurica_place {
    POMURICA_PLACE_R8_USR = 0,
    POMURICA_PLACE_R9_USR = 1,
    POMURICA_PLACE_R10_USR = 2,
    POMURICA_PLACE_R11_USR = 3,
    POMURICA_PLACE_R12_USR = 4,
    POMURICA_PLACE_SP_USR = 5,
    POMURICA_PLACE_LR_USR = 6,
    POMURICA_PLACE_R8_FIQ = 7,
    POMURICA_PLACE_R9_FIQ = 8,
    POMURICA_PLACE_R10_FIQ = 9,
    POMURICA_PLACE_R11_FIQ = 10,
    POMURICA_PLACE_R12_FIQ = 11,
    POMURICA_PLACE_SP_FIQ = 12,
    POMURICA_PLACE_LR_FIQ = 13,
    POMURICA_PLACE_LR_IRQ = 14,
    POMURICA_PLACE_SP_IRQ = 15,
    POMURICA_PLACE_LR_SVC = 16,
    POMURICA_PLACE_SP_SVC = 17,
    POMURICA_PLACE_LR_ABT = 18,
    POMURICA_PLACE_SP_ABT = 19,
    POMURICA_PLACE_LR_UND = 20,
    POMURICA_PLACE_SP_UND = 21,
    POMURICA_PLACE_LR_MON = 22,
    POMURICA_PLACE_SP_MON = 23,
    POMURICA_PLACE_ELR_HYP = 24,
    POMURICA_PLACE_SP_HYP = 25,
    POMURICA_PLACE_SPSR_FIQ = 26,
    POMURICA_PLACE_SPSR_IRQ = 27,
    POMURICA_PLACE_SPSR_SVC = 28,
    POMURICA_PLACE_SPSR_ABT = 29,
    POMURICA_PLACE_SPSR_UND = 30,
    POMURICA_PLACE_SPSR_MON = 31,
    POMURICA_PLACE_SPSR_HYP = 32,
    POMURICA_PLACE_CPSR = 33,
    POMURICA_PLACE_PC = 34, /* of this instruction; for an interrupt, of the one not yet executed */
    POMURICA_PLACE_SCR = 35,
    POMURICA_PLACE_HCR = 36,
    POMURICA_PLACE_SCTLR_S = 37,
    POMURICA_PLACE_SCTLR_NS = 38,
    POMURICA_PLACE_HSCTLR = 39,
    POMURICA_PLACE_VBAR_S = 40,
    POMURICA_PLACE_VBAR_NS = 41,
    POMURICA_PLACE_HVBAR = 42,
    POMURICA_PLACE_MVBAR = 43,
    POMURICA_PLACE_HDCR = 44, /* not in a block of the old layout */
    POMURICA_PLACES = 45,
    POMURICA_OLD_PLACES = 44
};

/* Bits of CPSR and of an SPSR.  Bits 24-21 are 0 in a good block's CPSR. */
#define POMURICA_CPSR_N (UINT32_C(1) << 31)
#define POMURICA_CPSR_Z (UINT32_C(1) << 30)
#define POMURICA_CPSR_C (UINT32_C(1) << 29)
#define POMURICA_CPSR_V (UINT32_C(1) << 28)
#define POMURICA_CPSR_Q (UINT32_C(1) << 27)
#define POMURICA_CPSR_IT_1_0 (UINT32_C(3) << 25)
#define POMURICA_CPSR_BITS_24_21 (UINT32_C(15) << 21)
#define POMURICA_CPSR_IL (UINT32_C(1) << 20)
#define POMURICA_CPSR_GE (UINT32_C(15) << 16)
#define POMURICA_CPSR_IT_7_2 (UINT32_C(63) << 10)
#define POMURICA_CPSR_E (UINT32_C(1) << 9)
#define POMURICA_CPSR_A (UINT32_C(1) << 8)
#define POMURICA_CPSR_I (UINT32_C(1) << 7)
#define POMURICA_CPSR_F (UINT32_C(1) << 6)
#define POMURICA_CPSR_T (UINT32_C(1) << 5)
#define POMURICA_CPSR_MODE UINT32_C(31)

/* The bits of SCR, HCR, SCTLR (of both states), HSCTLR and HDCR that steer the rules; no other bit of them does. */
#define POMURICA_SCR_NS (UINT32_C(1) << 0)
#define POMURICA_SCR_IRQ (UINT32_C(1) << 1)
#define POMURICA_SCR_FIQ (UINT32_C(1) << 2)
#define POMURICA_SCR_EA (UINT32_C(1) << 3)
#define POMURICA_SCR_FW (UINT32_C(1) << 4)
#define POMURICA_SCR_AW (UINT32_C(1) << 5)
#define POMURICA_SCR_SCD (UINT32_C(1) << 7) /* SMC is disabled */
#define POMURICA_SCR_HCE (UINT32_C(1) << 8) /* HVC is enabled */

#define POMURICA_HCR_FMO (UINT32_C(1) << 3)
#define POMURICA_HCR_IMO (UINT32_C(1) << 4)
#define POMURICA_HCR_AMO (UINT32_C(1) << 5)
#define POMURICA_HCR_VF (UINT32_C(1) << 6) /* signals a virtual FIQ, and stays when it is taken */
#define POMURICA_HCR_VI (UINT32_C(1) << 7) /* signals a virtual IRQ, and stays when it is taken */
#define POMURICA_HCR_VA (UINT32_C(1) << 8) /* signals a virtual SError, and is cleared when it is taken */
#define POMURICA_HCR_TSC (UINT32_C(1) << 19)
#define POMURICA_HCR_TGE (UINT32_C(1) << 27)

#define POMURICA_SCTLR_V (UINT32_C(1) << 13)
#define POMURICA_SCTLR_EE (UINT32_C(1) << 25) /* of HSCTLR too */
#define POMURICA_SCTLR_TE (UINT32_C(1) << 30) /* of HSCTLR too */

#define POMURICA_HDCR_TDE (UINT32_C(1) << 8) /* a debug abort from Non-secure User or EL1 enters Hyp */

/* Which exception an entry was: bits 31-16 of its value. */
enum pomurica_which {
    POMURICA_WHICH_SYNCHRONOUS = 0,
    POMURICA_WHICH_SERROR = 1,
    POMURICA_WHICH_FIQ = 2,
    POMURICA_WHICH_IRQ = 3,
    POMURICA_WHICH_VIRTUAL_SERROR = 4,
    POMURICA_WHICH_VIRTUAL_FIQ = 5,
    POMURICA_WHICH_VIRTUAL_IRQ = 6
};

/* Where the words of an answer, a report, an explanation and the parts of an instruction lie, for pomurica_get_word. */
enum pomurica_told_word {
    POMURICA_ANSWER_NUMBER = 0,
    POMURICA_ANSWER_VALUE = 1,
    POMURICA_REPORT_NUMBER = 0,
    POMURICA_REPORT_PLACE = 1,
    POMURICA_REPORT_STEPS = 2,
    POMURICA_EXPLANATION_NUMBER = 0, /* the first three are the report's */
    POMURICA_EXPLANATION_PLACE = 1,
    POMURICA_EXPLANATION_STEPS = 2,
    POMURICA_EXPLANATION_PART = 3,   /* enum pomurica_part */
    POMURICA_EXPLANATION_FOUND = 4,
    POMURICA_EXPLANATION_DUE = 5,
    POMURICA_PARTS_CODE = 0,      /* POMURICA_EVENT_BANKED_READ of MRS, POMURICA_EVENT_BANKED_WRITE of MSR */
    POMURICA_PARTS_A = 1,         /* 32 * R + SYSm, 0 to 63: A of that event */
    POMURICA_PARTS_CONDITION = 2, /* 0 to 14, POMURICA_MOST_CONDITION, which is always */
    POMURICA_PARTS_REGISTER = 3   /* 0 to 14, POMURICA_MOST_REGISTER: r0 to r14, which MRS writes and MSR reads */
};

/*
 * One step: the event (code, a, b) on the block.
 *
 * block   180 bytes.  A done step leaves the state after the event, a refused
 *         one leaves every byte.
 * answer  8 bytes: the number, then the value, each a little-endian word.
 *
 * Returns the number, 0 to 7, 16 or 17; the lowest that applies.
 * POMURICA_BAD_SIZE, if block_len is not 180 or answer_len not 8, writes neither
 * buffer: a block of 176 bytes, out of a trace of the old layout, needs a word of
 * 0 behind it.
 * POMURICA_BAD_EVENT is also what a check with a virtual line gets, which the old
 * layout knows.  To do one of such a trace, leave the line off, set HCR.VF or
 * HCR.VI for it in the block, and put the bit back as it was after the step.
 * POMURICA_DISABLED: the core finds such a call Undefined, so that a recorder
 * has to send POMURICA_EVENT_UNDEFINED in its place.
 *
 * The value of a done step: an entry, which * 65536 + mode * 256 + offset of
 * the vector; an interrupt check that takes nothing, 0; a banked read, the
 * word; a banked write, a note or a return, legal or not, 0.  The value of a
 * refused step is 0.
 */
uint32_t pomurica_step(uint8_t *block, size_t block_len,
                       uint32_t code, uint32_t a, uint32_t b,
                       uint8_t *answer, size_t answer_len);

/* An event and an answer as structs of words, for many at a time.  They lie as the processor's own words do. */
struct pomurica_event {
    uint32_t code, a, b;
};

struct pomurica_answer {
    uint32_t number, value;
};

/*
 * Many steps: the events one after another on the block, each with its answer.
 *
 * events   events_len of them; only read.
 * answers  as many: each becomes what pomurica_step answers its event, done in
 *          this order.  An event that is refused has its number and the value 0,
 *          changes nothing, and the rest go on.
 * block    180 bytes: the state after all events.
 *
 * The lengths of events and answers count elements, not bytes, and a pointer is
 * aligned as its struct is.  Returns POMURICA_DONE, also for no events, and
 * whatever each of them answers.  POMURICA_BAD_SIZE, if the lengths differ or
 * block_len is not 180: then no element and no byte has changed.
 */
uint32_t pomurica_batch(const struct pomurica_event *events, size_t events_len,
                        struct pomurica_answer *answers, size_t answers_len,
                        uint8_t *block, size_t block_len);

/*
 * The checker: whether the bytes are the trace, in the old layout or the new, of
 * some start block of that layout and some list of at most 65,535 events, made by
 * the rules that hold for that layout, and nothing more.
 *
 * trace   any bytes of any length; only read.
 * report  12 bytes: the number, the place and the Steps, each a little-endian
 *         word.  Accepted: the place is the length of the trace, and Steps how
 *         many it has.  Refused: the place is the first byte of the record at
 *         fault (POMURICA_TRAILING: the first byte too many), at most
 *         13,369,336, and Steps is how many Steps before it were found right.
 *
 * Returns the number: POMURICA_DONE if and only if the trace is accepted, else
 * 8 to 12.  POMURICA_BAD_SIZE, if report_len is not 12, writes nothing.
 */
uint32_t pomurica_check(const uint8_t *trace, size_t trace_len,
                        uint8_t *report, size_t report_len);

/*
 * The checker for a trace that arrives in pieces: open a session, feed it the
 * bytes as they come, in runs of any length, and close it.  However the bytes
 * were cut, closing gives what pomurica_check gives for all of them together.
 *
 *     struct pomurica_session session;
 *
 *     pomurica_open(&session);
 *     while ((got = read(line, run, sizeof run)) > 0)
 *         pomurica_feed(&session, run, (size_t)got);
 *     if (got == 0)
 *         number = pomurica_close(&session, report, sizeof report);
 *
 * A session is the caller's: it lies at an address aligned as its struct is, may
 * be copied, and needs nothing when it is done with.  Its words are the
 * functions' own.  One that nobody opened gets answers too, which say nothing of
 * a trace.
 *
 * The layout of the trace is in the stage.  While the Start is due it goes by
 * the kind that has come: 4 is the new layout's, and any other counts as the old
 * one's.  A trace of the old layout uses the first 176 bytes of the block and the
 * first 200 of the unfinished record; those behind them are 0 in a session that
 * was opened, and in any other stay as they are until a fault is known, which
 * clears every byte of both.
 */
enum pomurica_stage {
    POMURICA_STAGE_START = 0,    /* the Start is due */
    POMURICA_STAGE_OLD_NEXT = 1, /* a Step of the old layout is due, or behind the last one the End */
    POMURICA_STAGE_NEXT = 2,     /* the same of the new layout */
    POMURICA_STAGE_OVER = 3      /* the End has come, as any higher number says too */
};

struct pomurica_session {
    uint32_t stage;  /* enum pomurica_stage */
    uint32_t count;  /* n, the Steps that the Start counts */
    uint32_t steps;  /* Steps found right */
    uint32_t place;  /* the first byte of the record due, or at fault, counted from the first byte fed */
    uint32_t held;   /* how many bytes of the record due are kept */
    uint32_t fault;  /* the number of the fault that is known, or 0 */
    uint32_t closed; /* 0 while it is open */
    uint8_t block[POMURICA_BLOCK_SIZE];       /* the last block; 0 before the Start, and with a fault */
    uint8_t unfinished[POMURICA_RECORD_SIZE]; /* the bytes that are kept, 0 behind them */
};

/* Begins a trace, whatever the session held.  Returns 0. */
uint32_t pomurica_open(struct pomurica_session *session);

/*
 * The next bytes of the trace: any, and any number of them, 0 too.
 *
 * Returns 0 until a fault is known, and from then on the fault's number, which
 * no more bytes change: POMURICA_BAD_RECORD is known with a record's fourth
 * byte, POMURICA_BAD_COUNT and POMURICA_WRONG_STEP with its last one, and
 * POMURICA_TRAILING with the first byte behind the End.  POMURICA_SHORT is
 * known only at closing.  After closing it returns POMURICA_CLOSED, and nothing
 * has changed.
 */
uint32_t pomurica_feed(struct pomurica_session *session,
                       const uint8_t *bytes, size_t bytes_len);

/*
 * The end of the trace: the number, the place and the Steps of all bytes that
 * were fed, as pomurica_check has them, into a report of 12 bytes.
 *
 * Returns the number.  The session is closed, and closing it again gives the
 * same.  POMURICA_BAD_SIZE, if report_len is not 12: then nothing has changed,
 * and the session is as open as it was.
 */
uint32_t pomurica_close(struct pomurica_session *session,
                        uint8_t *report, size_t report_len);

/*
 * The recorder: the trace, in the new layout, of the events, one after another
 * from the block.
 *
 * block   180 bytes, which need not be good: the one that the Start shows; only
 *         read.
 * events  events_len of them, each with its answer in a Step of its own; an
 *         event that is refused has its number there, and the rest go on.  Only
 *         read; the length counts elements, and the pointer is aligned as the
 *         struct is.
 * buffer  its bytes from the offset on become the trace, which has
 *         POMURICA_TRACE_SIZE(events_len) bytes; those before it and those behind
 *         it stay.
 *
 * Returns POMURICA_DONE where the trace was written: pomurica_check accepts it,
 * with Steps equal to events_len.  Else the first of these that applies, and no
 * byte has changed: POMURICA_BAD_SIZE, if block_len is not 180;
 * POMURICA_BAD_COUNT, if there are more than 65,535 events; POMURICA_NO_ROOM, if
 * the offset is past the buffer's end or fewer bytes than the trace has lie
 * behind it.
 */
uint32_t pomurica_record(const uint8_t *block, size_t block_len,
                         const struct pomurica_event *events, size_t events_len,
                         uint8_t *buffer, size_t buffer_len, size_t offset);

/* The parts of a Step that the rules decide: its answer's number and value, and the block after, place by place. */
enum pomurica_part {
    POMURICA_PART_NONE = 0,
    POMURICA_PART_NUMBER = 1,
    POMURICA_PART_VALUE = 2,
    POMURICA_PART_BLOCK = 3 /* and the place: 3 to 47, in a trace of the old layout to 46 */
};

/*
 * What is wrong with a trace: the checker's report and, where that is
 * POMURICA_WRONG_STEP, the first part of the Step that is not what the rules
 * give from the block before it.
 *
 * trace        any bytes of any length; only read.
 * explanation  24 bytes: number, place and Steps as pomurica_check has them,
 *              then the part, the word found there and the word due, each a
 *              little-endian word.  Part, found and due are 0 for any other
 *              number.
 *
 * Returns the number.  POMURICA_BAD_SIZE, if explanation_len is not 24, writes
 * nothing.
 */
uint32_t pomurica_explain(const uint8_t *trace, size_t trace_len,
                          uint8_t *explanation, size_t explanation_len);

/*
 * The counts: 128 little-endian words in 512 bytes, all 0 to begin with.  Number
 * i of group g is word 32 * (g - 1) + i; words without a meaning stay as they are.
 */
enum pomurica_group {
    POMURICA_GROUP_CODE = 1,   /* Steps by event code, 1 to 13; a code that the rules do not know counts under 0 */
    POMURICA_GROUP_ANSWER = 2, /* Steps by answer number: they add up to all Steps */
    POMURICA_GROUP_TARGET = 3, /* entries by the mode that they entered, 16 to 31 (enum pomurica_mode); a return is none */
    POMURICA_GROUP_TAKEN = 4,  /* done interrupt checks by what they took (enum pomurica_which); 0 for nothing */
    POMURICA_GROUPS = 4,
    POMURICA_GROUP_SIZE = 32
};

/*
 * One trace more: what the Steps of an accepted trace add to the counts.
 *
 * trace   any bytes of any length; only read.
 * counts  512 bytes.  An accepted trace adds to each word the count of its
 *         class; any other answer leaves every byte.
 *
 * Returns POMURICA_DONE where the trace was counted.  A refused trace answers
 * its own number, 8 to 12.  POMURICA_FULL, if any count would pass
 * 4,294,967,295: then no word has changed.  POMURICA_BAD_SIZE, if counts_len is
 * not 512.
 */
uint32_t pomurica_count(const uint8_t *trace, size_t trace_len,
                        uint8_t *counts, size_t counts_len);

/*
 * The counts as lines of text: one for each count that is not 0, with the group,
 * the number and the count in decimal, single spaces between them and a line end
 * (0x0A) behind; groups rising, numbers rising within each.  No other byte is
 * written, and no zero behind the text.
 *
 * counts  512 bytes; only read.
 * lines   the room for the text: its first bytes become the text, the rest stays.
 *         POMURICA_LINES_SIZE bytes are always enough.
 * answer  8 bytes: the number, then how many bytes were written (0 for any
 *         number but POMURICA_DONE), each a little-endian word.
 *
 * Returns the number.  POMURICA_BAD_SIZE, if counts_len is not 512 or answer_len
 * not 8, writes nothing.  POMURICA_NO_ROOM, if lines_len is smaller than the
 * text, writes the answer alone.
 */
uint32_t pomurica_count_lines(const uint8_t *counts, size_t counts_len,
                              uint8_t *lines, size_t lines_len,
                              uint8_t *answer, size_t answer_len);

/*
 * Instruction words: MRS (banked register) and MSR (banked register) of the A32
 * instruction set.  The parts of one are the code and A of its event, the
 * condition under which the core does it, and the general register that gets the
 * word or has it.  Condition and general register are no part of the event.  B of
 * a banked write, the new word, is no part of the instruction word: it is what
 * the general register held.
 *
 * An A that names no register (a cell that Arm leaves unallocated) is read and
 * written like any other; a step answers its event with POMURICA_NO_REGISTER.
 */
enum {
    POMURICA_MOST_CONDITION = 14, /* 15 is of other instructions */
    POMURICA_MOST_REGISTER = 14   /* 15, PC, is CONSTRAINED UNPREDICTABLE */
};

/*
 * What an instruction word is.
 *
 * word   any word, as a number: 0xE1002200 is MRS r2, R8_usr, and 0xE120F202 is
 *        MSR R8_usr, r2.
 * parts  16 bytes: code, A, condition and register, each a little-endian word;
 *        all 0 where the word is none.
 *
 * Returns POMURICA_DONE, or POMURICA_NOT_BANKED for any word that is neither
 * instruction, or is one of them with condition 15, with register 15, or with a
 * bit that should be 0 or 1 and is not.  POMURICA_BAD_SIZE, if parts_len is not
 * 16, writes nothing.
 */
uint32_t pomurica_read_instruction(uint32_t word, uint8_t *parts, size_t parts_len);

/*
 * The instruction word of its parts.  Reading it gives the same parts, and a word
 * that was read is written as it was.
 *
 * code, a, condition, reg
 *        any words; the parts as pomurica_read_instruction has them.
 * word   4 bytes: the word, little-endian; 0 where the parts are of none.
 *
 * Returns POMURICA_DONE, or POMURICA_NOT_BANKED where any part is out of its
 * range.  POMURICA_BAD_SIZE, if word_len is not 4, writes nothing.
 */
uint32_t pomurica_write_instruction(uint32_t code, uint32_t a, uint32_t condition, uint32_t reg,
                                    uint8_t *word, size_t word_len);

/*
 * The edition of the archive: POMURICA_EDITION of the header that belongs to it.
 * A program that finds another one at its start was built with a header of other
 * rules, or of another release, and should say so and stop.
 */
uint32_t pomurica_edition(void);

/*
 * The word at a place, counted in words from 0, of a block, a record, an answer,
 * a report, an explanation or the parts of an instruction.
 */
static inline uint32_t pomurica_get_word(const uint8_t *bytes, size_t place)
{
    const uint8_t *word = bytes + 4 * place;

    return (uint32_t)word[0] | (uint32_t)word[1] << 8 | (uint32_t)word[2] << 16 |
           (uint32_t)word[3] << 24;
}

/* Puts a word at a place, counted in words from 0. */
static inline void pomurica_put_word(uint8_t *bytes, size_t place, uint32_t value)
{
    uint8_t *word = bytes + 4 * place;

    word[0] = (uint8_t)(value & 0xFF);
    word[1] = (uint8_t)(value >> 8 & 0xFF);
    word[2] = (uint8_t)(value >> 16 & 0xFF);
    word[3] = (uint8_t)(value >> 24);
}

/* The name of a number, for messages; "UNKNOWN" for one that is none. */
static inline const char *pomurica_number_name(uint32_t number)
{
    switch (number) {
    case POMURICA_DONE: return "DONE";
    case POMURICA_BAD_SIZE: return "BAD_SIZE";
    case POMURICA_BAD_MODE: return "BAD_MODE";
    case POMURICA_BAD_STATE: return "BAD_STATE";
    case POMURICA_BAD_EVENT: return "BAD_EVENT";
    case POMURICA_NOT_HERE: return "NOT_HERE";
    case POMURICA_NO_REGISTER: return "NO_REGISTER";
    case POMURICA_NO_RIGHT: return "NO_RIGHT";
    case POMURICA_SHORT: return "SHORT";
    case POMURICA_BAD_RECORD: return "BAD_RECORD";
    case POMURICA_BAD_COUNT: return "BAD_COUNT";
    case POMURICA_WRONG_STEP: return "WRONG_STEP";
    case POMURICA_TRAILING: return "TRAILING";
    case POMURICA_FULL: return "FULL";
    case POMURICA_CLOSED: return "CLOSED";
    case POMURICA_NO_ROOM: return "NO_ROOM";
    case POMURICA_DISABLED: return "DISABLED";
    case POMURICA_OWN_REGISTER: return "OWN_REGISTER";
    case POMURICA_NOT_BANKED: return "NOT_BANKED";
    default: return "UNKNOWN";
    }
}

#ifdef __cplusplus
}
#endif

#endif
