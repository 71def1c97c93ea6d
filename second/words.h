/*
 * The words of document 01: its names for places, modes, events, numbers, bits
 * and the parts of a record, and how a word lies in bytes.  No. 1, No. 6, No. 7,
 * No. 8, No. 9, No. 10, No. 11, No. 13 and No. 14 are those of document 02.
 */
#ifndef WORDS_H
#define WORDS_H

#include <stdint.h>

/* The state block: the place of each word; No. 11: "The block gains place 44, HDCR", which the old layout has not. */
enum place {
    R8_usr = 0, R9_usr, R10_usr, R11_usr, R12_usr, SP_usr, LR_usr,
    R8_fiq = 7, R9_fiq, R10_fiq, R11_fiq, R12_fiq, SP_fiq, LR_fiq,
    LR_irq = 14, SP_irq, LR_svc, SP_svc, LR_abt, SP_abt, LR_und, SP_und,
    LR_mon = 22, SP_mon, ELR_hyp, SP_hyp,
    SPSR_fiq = 26, SPSR_irq, SPSR_svc, SPSR_abt, SPSR_und, SPSR_mon, SPSR_hyp,
    CPSR = 33, PC,
    SCR = 35, HCR,
    SCTLR_S = 37, SCTLR_NS, HSCTLR,
    VBAR_S = 40, VBAR_NS, HVBAR, MVBAR,
    HDCR = 44,
    PLACES = 45,
    OLD_PLACES = 44
};

/* The state block: the nine mode numbers. */
enum mode {
    MODE_USER = 0x10,
    MODE_FIQ = 0x11,
    MODE_IRQ = 0x12,
    MODE_SUPERVISOR = 0x13,
    MODE_MONITOR = 0x16,
    MODE_ABORT = 0x17,
    MODE_HYP = 0x1A,
    MODE_UNDEFINED = 0x1B,
    MODE_SYSTEM = 0x1F
};

/* The state block: the bits of CPSR that steer or change; N Z C V Q and GE do neither. */
enum cpsr_bits {
    CPSR_MODE = 0x1F,
    CPSR_T = 1 << 5,
    CPSR_F = 1 << 6,
    CPSR_I = 1 << 7,
    CPSR_A = 1 << 8,
    CPSR_E = 1 << 9,
    CPSR_IL = 1 << 20,
    CPSR_24_TO_21 = 0xF << 21,
    CPSR_IT = 3 << 25 | 0x3F << 10
};

/* The state block: the bits of SCR; No. 8: SCD and HCE, which in document 01 "steer nothing". */
enum scr_bits {
    SCR_NS = 1 << 0,
    SCR_IRQ = 1 << 1,
    SCR_FIQ = 1 << 2,
    SCR_EA = 1 << 3,
    SCR_FW = 1 << 4,
    SCR_AW = 1 << 5,
    SCR_SCD = 1 << 7,
    SCR_HCE = 1 << 8
};

/* The state block: the bits of HCR. */
enum hcr_bits {
    HCR_FMO = 1 << 3,
    HCR_IMO = 1 << 4,
    HCR_AMO = 1 << 5,
    HCR_VF = 1 << 6,
    HCR_VI = 1 << 7,
    HCR_VA = 1 << 8,
    HCR_TSC = 1 << 19,
    HCR_TGE = 1 << 27
};

/* The state block: the bits of both SCTLR and of HSCTLR, which has no V. */
enum sctlr_bits {
    SCTLR_V = 1 << 13,
    SCTLR_EE = 1 << 25,
    SCTLR_TE = 1 << 30
};

/* No. 11: "HDCR.TDE (bit 8)". */
enum hdcr_bits {
    HDCR_TDE = 1 << 8
};

/* Events: the codes; No. 9: "Event 13, exception return". */
enum code {
    CODE_UNDEFINED = 1,
    CODE_SVC = 2,
    CODE_SMC = 3,
    CODE_HVC = 4,
    CODE_PREFETCH_ABORT = 5,
    CODE_DATA_ABORT = 6,
    CODE_HYP_TRAP = 7,
    CODE_MONITOR_TRAP = 8,
    CODE_INTERRUPT_CHECK = 9,
    CODE_BANKED_READ = 10,
    CODE_BANKED_WRITE = 11,
    CODE_NOTE = 12,
    CODE_RETURN = 13,
    CODES = 14
};

/* Events: A of an abort; No. 11: "Prefetch Abort's A gains 4, debug". */
enum abort_bits {
    ABORT_EXTERNAL = 1,
    ABORT_STAGE_2 = 2,
    ABORT_DEBUG = 4
};

/* Events: A of an interrupt check; No. 13: the virtual lines are of the old layout alone. */
enum line_bits {
    LINE_SERROR = 1,
    LINE_FIQ = 2,
    LINE_IRQ = 4,
    LINE_VFIQ = 8,
    LINE_VIRQ = 16
};

/*
 * Answer numbers: 0 to 7 of a step, 16 (No. 8) and 17 (No. 10); 0 and 8 to 12 of the checker (The trace); 13 and 15 of counts
 * (No. 1); 14 of a feeding (No. 6); 0, 1, 10 and 15 of the recorder (No. 7); 0, 1 and 18 of an instruction word (No. 14).
 */
enum number {
    DONE = 0,
    BAD_SIZE = 1,
    BAD_MODE = 2,
    BAD_STATE = 3,
    BAD_EVENT = 4,
    NOT_HERE = 5,
    NO_REGISTER = 6,
    NO_RIGHT = 7,
    SHORT = 8,
    BAD_RECORD = 9,
    BAD_COUNT = 10,
    WRONG_STEP = 11,
    TRAILING = 12,
    FULL = 13,
    CLOSED = 14,
    NO_ROOM = 15,
    DISABLED = 16,
    OWN_REGISTER = 17,
    NOT_BANKED = 18
};

/* The state block, Answer numbers, The trace, No. 1, No. 14: sizes in bytes; No. 11: the block "has 180 bytes". */
enum size {
    BLOCK_SIZE = 4 * PLACES,
    OLD_BLOCK_SIZE = 4 * OLD_PLACES, /* in the old layout */
    ANSWER_SIZE = 8,
    REPORT_SIZE = 12,
    COUNTS_SIZE = 512,
    LINES_SIZE = 2048, /* enough for the lines of any counts */
    PARTS_SIZE = 16,   /* code, A, condition and register of an instruction */
    WORD_SIZE = 4
};

/* No. 11: "in the old layout or the new". */
enum layout {
    OLD_LAYOUT,
    NEW_LAYOUT,
    LAYOUTS
};

/* The trace: where the parts of a record begin, from its first byte; in both layouts a block is the last. */
enum part {
    HEADER_SIZE = 4,
    START_COUNT = 4,
    START_BLOCK = 8,
    STEP_CODE = 4,
    STEP_A = 8,
    STEP_B = 12,
    STEP_ANSWER = 16,
    STEP_VALUE = 20,
    STEP_BLOCK = 24,
    END_COUNT = 4
};

/* No. 6: how far the records of a session have come; No. 11: behind the Start also in which layout. */
enum stage {
    STAGE_START = 0,    /* the Start is due */
    STAGE_OLD_NEXT = 1, /* a Step is due, or the End, in the old layout */
    STAGE_NEXT = 2,     /* the same in the new one */
    STAGE_OVER = 3      /* nothing is due */
};

/* The trace: two bytes, little-endian. */
static inline uint32_t get_half(const uint8_t *bytes)
{
    return (uint32_t)bytes[0] | (uint32_t)bytes[1] << 8;
}

/* The state block: four bytes, little-endian. */
static inline uint32_t get_word(const uint8_t *bytes)
{
    return get_half(bytes) | get_half(bytes + 2) << 16;
}

/* The trace: two bytes, little-endian, of a number that they can hold. */
static inline void put_half(uint8_t *bytes, uint32_t half)
{
    bytes[0] = (uint8_t)(half & 0xFF);
    bytes[1] = (uint8_t)(half >> 8 & 0xFF);
}

/* The state block: a word as four bytes, little-endian. */
static inline void put_word(uint8_t *bytes, uint32_t word)
{
    put_half(bytes, word & 0xFFFF);
    put_half(bytes + 2, word >> 16);
}

#endif
