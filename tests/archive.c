/*
 * The step of the archive, called from C: document 01's worked cases a to k,
 * calls that the disable bits stop (No. 8), returns, legal, illegal and refused
 * (No. 9), and entries that a return takes back, debug aborts by HDCR (No. 11),
 * virtual interrupts by HCR, and no more by their lines (No. 13), every length of
 * both buffers from 0 to 210, and guard bytes around both.
 */
#include "group.h"
#include "lent.h"
#include "pomurica.h"

#include <stdbool.h>
#include <stdio.h>
#include <string.h>

enum {
    CPSR = POMURICA_PLACE_CPSR,
    PC = POMURICA_PLACE_PC,
    SCR = POMURICA_PLACE_SCR,
    HCR = POMURICA_PLACE_HCR,
    VBAR_NS = POMURICA_PLACE_VBAR_NS,
    HDCR = POMURICA_PLACE_HDCR,
    R8_USR = POMURICA_PLACE_R8_USR,
    SP_USR = POMURICA_PLACE_SP_USR,
    LR_FIQ = POMURICA_PLACE_LR_FIQ,
    LR_IRQ = POMURICA_PLACE_LR_IRQ,
    LR_SVC = POMURICA_PLACE_LR_SVC,
    LR_ABT = POMURICA_PLACE_LR_ABT,
    LR_MON = POMURICA_PLACE_LR_MON,
    ELR_HYP = POMURICA_PLACE_ELR_HYP,
    SP_HYP = POMURICA_PLACE_SP_HYP,
    CHECK = POMURICA_EVENT_INTERRUPT_CHECK,
    READ = POMURICA_EVENT_BANKED_READ,
    SVC = POMURICA_EVENT_SVC,
    SMC = POMURICA_EVENT_SMC,
    HVC = POMURICA_EVENT_HVC,
    UNDEFINED = POMURICA_EVENT_UNDEFINED,
    PREFETCH_ABORT = POMURICA_EVENT_PREFETCH_ABORT,
    DATA_ABORT = POMURICA_EVENT_DATA_ABORT,
    NOTE = POMURICA_EVENT_NOTE,
    RETURN = POMURICA_EVENT_RETURN
};

/* The words that decide a worked case; the others are 0 but PC, 0x8000 unless named. */
struct start {
    uint32_t scr, hcr, cpsr, pc, vbar_ns, hdcr;
};

struct named_word {
    uint32_t place, word;
};

#define PC_HERE 0x8000
#define MOST_NAMED 3

/* A row of "Numbers to hold against it": all that its result names. */
struct worked_case {
    const char *name;
    struct start start;
    uint32_t code, a;
    uint32_t number, value;
    struct named_word named[MOST_NAMED];
    size_t named_count;
};

static const struct worked_case ENTRIES[] = {
    { "a", { .scr = 1, .cpsr = 0x13, .pc = PC_HERE, .vbar_ns = 0x10000000 }, CHECK, 4,
      POMURICA_DONE, 0x31218, { { CPSR, 0x192 }, { LR_IRQ, 0x8004 }, { PC, 0x10000018 } }, 3 },
    { "b", { .scr = 3, .cpsr = 0x13, .pc = PC_HERE, .vbar_ns = 0x10000000 }, CHECK, 4,
      POMURICA_DONE, 0x31618, { { CPSR, 0x1D6 } }, 1 },
    { "c", { .scr = 3, .cpsr = 0x93, .pc = PC_HERE }, CHECK, 4,
      POMURICA_DONE, 0, { { CPSR, 0x93 }, { PC, PC_HERE } }, 2 },
    { "d", { .scr = 1, .hcr = 0x10, .cpsr = 0x93, .pc = PC_HERE }, CHECK, 4,
      POMURICA_DONE, 0x31A18, { { CPSR, 0x1DA }, { ELR_HYP, 0x8000 } }, 2 },
    { "e", { .scr = 5, .cpsr = 0x53, .pc = PC_HERE }, CHECK, 2,
      POMURICA_DONE, 0x2161C, { { SCR, 5 } }, 1 },
    { "e, SCR 0x15", { .scr = 0x15, .cpsr = 0x53, .pc = PC_HERE }, CHECK, 2,
      POMURICA_DONE, 0, { { CPSR, 0x53 }, { PC, PC_HERE } }, 2 },
    { "f", { .scr = 1, .hcr = 0x120, .cpsr = 0x13, .pc = PC_HERE }, CHECK, 0,
      POMURICA_DONE, 0x41710, { { HCR, 0x20 }, { LR_ABT, 0x8008 } }, 2 },
    { "g", { .scr = 1, .cpsr = 0x30, .pc = 0xFFFFFFFE }, SVC, 0,
      POMURICA_DONE, 0x1308, { { LR_SVC, 0 }, { CPSR, 0x93 } }, 2 },
    { "h", { .scr = 1, .cpsr = 0x16, .pc = PC_HERE }, SMC, 0,
      POMURICA_DONE, 0x1608, { { SCR, 0 }, { LR_MON, 0x8004 } }, 2 },
};

#define NS POMURICA_SCR_NS
#define SCD POMURICA_SCR_SCD
#define HCE POMURICA_SCR_HCE
#define TSC POMURICA_HCR_TSC
#define TGE POMURICA_HCR_TGE

/* No. 8: calls that are done; an SMC from Non-secure EL1 with TSC 1 is trapped whatever SCD is. */
static const struct worked_case CALLS[] = {
    { "SMC from Secure", { .cpsr = 0x13, .pc = PC_HERE }, SMC, 0,
      POMURICA_DONE, 0x1608, { { CPSR, 0x1D6 }, { LR_MON, 0x8004 }, { PC, 0x08 } }, 3 },
    { "SMC from NS EL1", { .scr = NS, .cpsr = 0x13, .pc = PC_HERE }, SMC, 0,
      POMURICA_DONE, 0x1608, { { SCR, NS }, { LR_MON, 0x8004 }, { PC, 0x08 } }, 3 },
    { "SMC from NS EL1, TSC", { .scr = NS, .hcr = TSC, .cpsr = 0x13, .pc = PC_HERE }, SMC, 0,
      POMURICA_DONE, 0x1A14, { { CPSR, 0x1DA }, { ELR_HYP, 0x8000 }, { PC, 0x14 } }, 3 },
    { "SMC from NS EL1, SCD, TSC", { .scr = NS | SCD, .hcr = TSC, .cpsr = 0x13, .pc = PC_HERE }, SMC, 0,
      POMURICA_DONE, 0x1A14, { { CPSR, 0x1DA }, { ELR_HYP, 0x8000 }, { PC, 0x14 } }, 3 },
    { "SMC from NS System, SCD, TSC", { .scr = NS | SCD, .hcr = TSC, .cpsr = 0x1F, .pc = PC_HERE }, SMC, 0,
      POMURICA_DONE, 0x1A14, { { CPSR, 0x1DA }, { ELR_HYP, 0x8000 }, { PC, 0x14 } }, 3 },
    { "SMC from Hyp", { .scr = NS, .cpsr = 0x1A, .pc = PC_HERE }, SMC, 0,
      POMURICA_DONE, 0x1608, { { SCR, NS }, { LR_MON, 0x8004 }, { PC, 0x08 } }, 3 },
    { "HVC from NS EL1, HCE", { .scr = NS | HCE, .cpsr = 0x13, .pc = PC_HERE }, HVC, 0,
      POMURICA_DONE, 0x1A14, { { CPSR, 0x1DA }, { ELR_HYP, 0x8004 }, { PC, 0x14 } }, 3 },
    { "HVC from NS EL1, HCE, SCD, TSC", { .scr = NS | HCE | SCD, .hcr = TSC, .cpsr = 0x13, .pc = PC_HERE }, HVC, 0,
      POMURICA_DONE, 0x1A14, { { CPSR, 0x1DA }, { ELR_HYP, 0x8004 }, { PC, 0x14 } }, 3 },
    { "HVC from Hyp, HCE", { .scr = NS | HCE, .cpsr = 0x1A, .pc = PC_HERE }, HVC, 0,
      POMURICA_DONE, 0x1A08, { { CPSR, 0x1DA }, { ELR_HYP, 0x8004 }, { PC, 0x08 } }, 3 },
};

/* No. 8: calls that are refused; BAD_EVENT and NOT_HERE go before DISABLED. */
struct refused_call {
    const char *name;
    uint32_t code, a, scr, hcr, cpsr, number;
};

static const struct refused_call REFUSED_CALLS[] = {
    { "SMC from Secure, SCD", SMC, 0, SCD, 0, 0x13, POMURICA_DISABLED },
    { "SMC from Secure, SCD, TSC", SMC, 0, SCD, TSC, 0x13, POMURICA_DISABLED },
    { "SMC from Monitor, SCD", SMC, 0, SCD, 0, 0x16, POMURICA_DISABLED },
    { "h with SCD", SMC, 0, NS | SCD, 0, 0x16, POMURICA_DISABLED },
    { "h with SCD, TSC", SMC, 0, NS | SCD, TSC, 0x16, POMURICA_DISABLED },
    { "SMC from NS EL1, SCD", SMC, 0, NS | SCD, 0, 0x13, POMURICA_DISABLED },
    { "SMC from Hyp, SCD", SMC, 0, NS | SCD, 0, 0x1A, POMURICA_DISABLED },
    { "SMC from Hyp, SCD, TSC", SMC, 0, NS | SCD, TSC, 0x1A, POMURICA_DISABLED },
    { "SMC from Secure User, SCD", SMC, 0, SCD, 0, 0x10, POMURICA_NOT_HERE },
    { "SMC from NS User, SCD", SMC, 0, NS | SCD, 0, 0x10, POMURICA_NOT_HERE },
    { "SMC from NS User, SCD, TSC, TGE", SMC, 0, NS | SCD, TSC | TGE, 0x10, POMURICA_NOT_HERE },
    { "SMC with A 1, SCD", SMC, 1, NS | SCD, 0, 0x13, POMURICA_BAD_EVENT },
    { "HVC from NS EL1", HVC, 0, NS, 0, 0x13, POMURICA_DISABLED },
    { "HVC from NS EL1, SCD, TSC", HVC, 0, NS | SCD, TSC, 0x13, POMURICA_DISABLED },
    { "HVC from Hyp", HVC, 0, NS, 0, 0x1A, POMURICA_DISABLED },
    { "HVC from NS User", HVC, 0, NS, 0, 0x10, POMURICA_NOT_HERE },
    { "HVC from NS User, HCE", HVC, 0, NS | HCE, 0, 0x10, POMURICA_NOT_HERE },
    { "HVC from Secure", HVC, 0, 0, 0, 0x13, POMURICA_NOT_HERE },
    { "HVC from Secure, HCE", HVC, 0, HCE, 0, 0x13, POMURICA_NOT_HERE },
    { "HVC from Monitor, NS 1", HVC, 0, NS, 0, 0x16, POMURICA_NOT_HERE },
    { "HVC from Monitor, NS 1, HCE", HVC, 0, NS | HCE, 0, 0x16, POMURICA_NOT_HERE },
    { "HVC with A 1", HVC, 1, NS, 0, 0x13, POMURICA_BAD_EVENT },
};

#define EA POMURICA_SCR_EA
#define TDE POMURICA_HDCR_TDE
#define DEBUG POMURICA_ABORT_DEBUG

/* No. 11: debug aborts.  From Non-secure User and EL1 TDE leads them to Hyp; else they are as with A 0. */
static const struct worked_case DEBUGS[] = {
    { "NS User, TDE", { .scr = NS, .hdcr = TDE, .cpsr = 0x10, .pc = PC_HERE }, PREFETCH_ABORT, DEBUG,
      POMURICA_DONE, 0x1A14, { { CPSR, 0x1DA }, { ELR_HYP, 0x8000 }, { PC, 0x14 } }, 3 },
    { "NS User", { .scr = NS, .hdcr = ~TDE, .cpsr = 0x10, .pc = PC_HERE }, PREFETCH_ABORT, DEBUG,
      POMURICA_DONE, 0x170C, { { CPSR, 0x197 }, { LR_ABT, 0x8004 }, { PC, 0x0C } }, 3 },
    { "NS User, TDE, TGE", { .scr = NS, .hcr = TGE, .hdcr = TDE, .cpsr = 0x10, .pc = PC_HERE }, PREFETCH_ABORT, DEBUG,
      POMURICA_DONE, 0x1A14, { { CPSR, 0x1DA }, { ELR_HYP, 0x8000 }, { PC, 0x14 } }, 3 },
    { "NS User, TGE", { .scr = NS, .hcr = TGE, .cpsr = 0x10, .pc = PC_HERE }, PREFETCH_ABORT, DEBUG,
      POMURICA_DONE, 0x1A14, { { CPSR, 0x1DA }, { ELR_HYP, 0x8000 }, { PC, 0x14 } }, 3 },
    { "NS User, TDE, T 1", { .scr = NS, .hdcr = TDE, .cpsr = 0x30, .pc = 0x8002 }, PREFETCH_ABORT, DEBUG,
      POMURICA_DONE, 0x1A14, { { CPSR, 0x1DA }, { ELR_HYP, 0x8002 }, { PC, 0x14 } }, 3 },
    { "NS Supervisor, TDE", { .scr = NS, .hdcr = TDE, .cpsr = 0x13, .pc = PC_HERE }, PREFETCH_ABORT, DEBUG,
      POMURICA_DONE, 0x1A14, { { CPSR, 0x1DA }, { ELR_HYP, 0x8000 }, { PC, 0x14 } }, 3 },
    { "NS System, TDE", { .scr = NS, .hdcr = TDE, .cpsr = 0x1F, .pc = PC_HERE }, PREFETCH_ABORT, DEBUG,
      POMURICA_DONE, 0x1A14, { { CPSR, 0x1DA }, { ELR_HYP, 0x8000 }, { PC, 0x14 } }, 3 },
    { "NS Abort, TDE", { .scr = NS, .hdcr = TDE, .cpsr = 0x17, .pc = PC_HERE }, PREFETCH_ABORT, DEBUG,
      POMURICA_DONE, 0x1A14, { { CPSR, 0x1DA }, { LR_ABT, 0 }, { PC, 0x14 } }, 3 },
    { "NS Abort", { .scr = NS, .cpsr = 0x17, .pc = PC_HERE }, PREFETCH_ABORT, DEBUG,
      POMURICA_DONE, 0x170C, { { CPSR, 0x197 }, { LR_ABT, 0x8004 }, { PC, 0x0C } }, 3 },
    { "NS User, EA, TDE", { .scr = NS | EA, .hdcr = TDE, .cpsr = 0x10, .pc = PC_HERE }, PREFETCH_ABORT, DEBUG,
      POMURICA_DONE, 0x1A14, { { CPSR, 0xDA }, { ELR_HYP, 0x8000 }, { PC, 0x14 } }, 3 },
    { "NS User, EA", { .scr = NS | EA, .cpsr = 0x10, .pc = PC_HERE }, PREFETCH_ABORT, DEBUG,
      POMURICA_DONE, 0x170C, { { CPSR, 0x197 }, { LR_ABT, 0x8004 }, { PC, 0x0C } }, 3 },
    { "Secure User, TDE", { .hdcr = TDE, .cpsr = 0x10, .pc = PC_HERE }, PREFETCH_ABORT, DEBUG,
      POMURICA_DONE, 0x170C, { { CPSR, 0x197 }, { LR_ABT, 0x8004 }, { PC, 0x0C } }, 3 },
    { "Secure Supervisor, TDE", { .hdcr = TDE, .cpsr = 0x13, .pc = PC_HERE }, PREFETCH_ABORT, DEBUG,
      POMURICA_DONE, 0x170C, { { CPSR, 0x197 }, { LR_ABT, 0x8004 }, { PC, 0x0C } }, 3 },
    { "Monitor, NS 1, TDE", { .scr = NS, .hdcr = TDE, .cpsr = 0x16, .pc = PC_HERE }, PREFETCH_ABORT, DEBUG,
      POMURICA_DONE, 0x170C, { { CPSR, 0x197 }, { LR_ABT, 0x8004 }, { SCR, 0 } }, 3 },
    { "Hyp, TDE", { .scr = NS, .hdcr = TDE, .cpsr = 0x1A, .pc = PC_HERE }, PREFETCH_ABORT, DEBUG,
      POMURICA_DONE, 0x1A0C, { { CPSR, 0x1DA }, { ELR_HYP, 0x8000 }, { PC, 0x0C } }, 3 },
    { "NS User, TDE, not debug", { .scr = NS, .hdcr = TDE, .cpsr = 0x10, .pc = PC_HERE }, PREFETCH_ABORT, 0,
      POMURICA_DONE, 0x170C, { { CPSR, 0x197 }, { LR_ABT, 0x8004 }, { PC, 0x0C } }, 3 },
    { "NS User, TDE, Data Abort", { .scr = NS, .hdcr = TDE, .cpsr = 0x10, .pc = PC_HERE }, DATA_ABORT, 0,
      POMURICA_DONE, 0x1710, { { CPSR, 0x197 }, { LR_ABT, 0x8008 }, { PC, 0x10 } }, 3 },
};

/* No. 11: events that are none, on a good block with TDE 1. */
static const struct {
    const char *name;
    uint32_t code, a, b;
} BAD_DEBUGS[] = {
    { "debug and external", PREFETCH_ABORT, DEBUG | POMURICA_ABORT_EXTERNAL, 0 },
    { "debug of stage 2", PREFETCH_ABORT, DEBUG | POMURICA_ABORT_STAGE_2, 0 },
    { "debug and both", PREFETCH_ABORT, DEBUG | POMURICA_ABORT_EXTERNAL | POMURICA_ABORT_STAGE_2, 0 },
    { "A 8", PREFETCH_ABORT, 8, 0 },
    { "A 4 and a bit above", PREFETCH_ABORT, UINT32_C(1) << 31 | DEBUG, 0 },
    { "debug with B 1", PREFETCH_ABORT, DEBUG, 1 },
    { "debug with B in its highest bit", PREFETCH_ABORT, DEBUG, UINT32_C(1) << 31 },
    { "a Data Abort, debug", DATA_ABORT, DEBUG, 0 },
    { "a note on place 45", NOTE, POMURICA_PLACES, 0 },
};

#define FMO POMURICA_HCR_FMO
#define IMO POMURICA_HCR_IMO
#define AMO POMURICA_HCR_AMO
#define VF POMURICA_HCR_VF
#define VI POMURICA_HCR_VI
#define VA POMURICA_HCR_VA

/* No. 13: VF and VI signal a guest, by themselves, and stay. */
static const struct worked_case SIGNALS[] = {
    { "FMO, VF", { .scr = NS, .hcr = FMO | VF, .cpsr = 0x13, .pc = PC_HERE, .vbar_ns = 0x10000000 }, CHECK, 0,
      POMURICA_DONE, 0x5111C, { { CPSR, 0x1D1 }, { LR_FIQ, 0x8004 }, { HCR, FMO | VF } }, 3 },
    { "IMO, VI", { .scr = NS, .hcr = IMO | VI, .cpsr = 0x13, .pc = PC_HERE, .vbar_ns = 0x10000000 }, CHECK, 0,
      POMURICA_DONE, 0x61218, { { CPSR, 0x192 }, { LR_IRQ, 0x8004 }, { HCR, IMO | VI } }, 3 },
    { "both", { .scr = NS, .hcr = FMO | VF | IMO | VI, .cpsr = 0x13, .pc = PC_HERE, .vbar_ns = 0x10000000 }, CHECK, 0,
      POMURICA_DONE, 0x5111C, { { CPSR, 0x1D1 }, { PC, 0x1000001C }, { HCR, FMO | VF | IMO | VI } }, 3 },
    { "both, F masked", { .scr = NS, .hcr = FMO | VF | IMO | VI, .cpsr = 0x53, .pc = PC_HERE }, CHECK, 0,
      POMURICA_DONE, 0x61218, { { CPSR, 0x1D2 }, { LR_IRQ, 0x8004 }, { PC, 0x18 } }, 3 },
    { "from User", { .scr = NS, .hcr = IMO | VI, .cpsr = 0x10, .pc = PC_HERE }, CHECK, 0,
      POMURICA_DONE, 0x61218, { { CPSR, 0x192 }, { LR_IRQ, 0x8004 }, { PC, 0x18 } }, 3 },
    { "beside line FIQ", { .scr = NS, .hcr = IMO | VI, .cpsr = 0x53, .pc = PC_HERE }, CHECK, 2, /* which is masked */
      POMURICA_DONE, 0x61218, { { CPSR, 0x1D2 }, { LR_IRQ, 0x8004 }, { PC, 0x18 } }, 3 },
    { "VF without FMO", { .scr = NS, .hcr = VF | IMO, .cpsr = 0x13, .pc = PC_HERE }, CHECK, 0, .number = POMURICA_DONE },
    { "VI without IMO", { .scr = NS, .hcr = VI | FMO, .cpsr = 0x13, .pc = PC_HERE }, CHECK, 0, .number = POMURICA_DONE },
    { "neither", { .scr = NS, .hcr = FMO | IMO, .cpsr = 0x13, .pc = PC_HERE }, CHECK, 0, .number = POMURICA_DONE },
    { "masked", { .scr = NS, .hcr = FMO | VF | IMO | VI, .cpsr = 0xD3, .pc = PC_HERE }, CHECK, 0, .number = POMURICA_DONE },
    { "TGE", { .scr = NS, .hcr = TGE | FMO | VF | IMO | VI, .cpsr = 0x10, .pc = PC_HERE }, CHECK, 0, .number = POMURICA_DONE },
    { "Hyp", { .scr = NS, .hcr = FMO | VF | IMO | VI, .cpsr = 0x1A, .pc = PC_HERE }, CHECK, 0, .number = POMURICA_DONE },
    { "Secure", { .hcr = FMO | VF | IMO | VI, .cpsr = 0x13, .pc = PC_HERE }, CHECK, 0, .number = POMURICA_DONE },
};

/* No. 13: where lines 8 and 16 are tried: where they brought an interrupt, where HCR brings it, and where neither does. */
static const struct {
    const char *name;
    uint32_t scr, hcr, cpsr, number;
} LINES_IN[] = {
    { "NS Supervisor, M 1", NS, AMO | FMO | IMO, 0x13, POMURICA_BAD_EVENT },
    { "NS Supervisor, M 1 and sources", NS, AMO | FMO | IMO | VA | VF | VI, 0x13, POMURICA_BAD_EVENT },
    { "NS Supervisor, M 1, masked", NS, AMO | FMO | IMO, 0x1D3, POMURICA_BAD_EVENT },
    { "NS User, M 0", NS, 0, 0x10, POMURICA_BAD_EVENT },
    { "NS User, TGE", NS, TGE, 0x10, POMURICA_BAD_EVENT },
    { "Hyp", NS, FMO | IMO, 0x1A, POMURICA_BAD_EVENT },
    { "Monitor, NS 1", NS, FMO | IMO, 0x16, POMURICA_BAD_EVENT },
    { "Secure Supervisor", 0, FMO | IMO, 0x13, POMURICA_BAD_EVENT },
    { "no mode", NS, FMO | IMO, 0x14, POMURICA_BAD_MODE },
    { "Hyp, NS 0", 0, FMO | IMO, 0x1A, POMURICA_BAD_STATE },
    { "NS Supervisor, TGE", NS, TGE | FMO | IMO, 0x13, POMURICA_BAD_STATE },
};

/* No. 9: where a mode has its saved word and the address of its return; User and System have none. */
static const struct {
    uint32_t spsr, link;
} SAVING[] = {
    [0x11] = { POMURICA_PLACE_SPSR_FIQ, POMURICA_PLACE_LR_FIQ },
    [0x12] = { POMURICA_PLACE_SPSR_IRQ, LR_IRQ },
    [0x13] = { POMURICA_PLACE_SPSR_SVC, LR_SVC },
    [0x16] = { POMURICA_PLACE_SPSR_MON, LR_MON },
    [0x17] = { POMURICA_PLACE_SPSR_ABT, LR_ABT },
    [0x1A] = { POMURICA_PLACE_SPSR_HYP, ELR_HYP },
    [0x1B] = { POMURICA_PLACE_SPSR_UND, POMURICA_PLACE_LR_UND },
};

/* No. 9: a done return from a mode, with its saved word and its link, and the two words that it changes. */
struct done_return {
    const char *name;
    uint32_t scr, hcr, mode, saved, link, a, cpsr, pc;
};

#define IL POMURICA_CPSR_IL

/* Of every field that a saved word has, all bits, but for T and the mode. */
#define FIELDS 0xFE1FFFC0

static const struct done_return RETURNS[] = {
    { "from SVC", NS, 0, 0x13, 0x10, 0x8004, 0, 0x10, 0x8004 },
    { "from SVC, T 1", NS, 0, 0x13, 0x30, 0x8002, 0, 0x30, 0x8002 },
    { "from Undefined", NS, 0, 0x1B, 0x10, 0x8004, 4, 0x10, 0x8000 },
    { "from Undefined, T 1", NS, 0, 0x1B, 0x30, 0x8002, 2, 0x30, 0x8000 },
    { "from Prefetch Abort", 0, 0, 0x17, 0x1F, 0x8004, 4, 0x1F, 0x8000 },
    { "from Data Abort", 0, 0, 0x17, 0x1F, 0x8008, 8, 0x1F, 0x8000 },
    { "from IRQ", NS, 0, 0x12, 0x13, 0x8004, 4, 0x13, 0x8000 },
    { "from FIQ", NS, 0, 0x11, 0x92, 0x8004, 4, 0x92, 0x8000 },
    { "to the same mode", 0, 0, 0x13, 0x13, 0x8000, 0, 0x13, 0x8000 },
    { "Secure Supervisor to Monitor", 0, 0, 0x13, 0x16, 0x8000, 0, 0x16, 0x8000 },
    { "Secure System, with TGE 1", 0, TGE, 0x11, 0x1F, 0x8000, 0, 0x1F, 0x8000 },
    { "Monitor to Supervisor, NS 0, TGE 1", 0, TGE, 0x16, 0x13, 0x8000, 0, 0x13, 0x8000 },
    { "Monitor to Supervisor, NS 1", NS, 0, 0x16, 0x13, 0x8000, 0, 0x13, 0x8000 },
    { "Monitor to Hyp, NS 1", NS, 0, 0x16, 0x1A, 0x8004, 0, 0x1A, 0x8004 },
    { "Monitor to Hyp, NS 1, TGE 1", NS, TGE, 0x16, 0x1A, 0x8004, 0, 0x1A, 0x8004 },
    { "Monitor to User, NS 1, TGE 1", NS, TGE, 0x16, 0x10, 0x8000, 0, 0x10, 0x8000 },
    { "Monitor to Monitor, NS 1, TGE 1", NS, TGE, 0x16, 0x16, 0x8000, 0, 0x16, 0x8000 },
    { "Hyp to Supervisor", NS, 0, 0x1A, 0x13, 0x8004, 0, 0x13, 0x8004 },
    { "Hyp to User, TGE 1", NS, TGE, 0x1A, 0x10, 0x8004, 0, 0x10, 0x8004 },
    { "Hyp to Hyp, TGE 1", NS, TGE, 0x1A, 0x1A, 0x8004, 0, 0x1A, 0x8004 },
    { "T 0, address 1", NS, 0, 0x13, 0x10, 0x8001, 0, 0x10, 0x8000 },
    { "T 0, address 2", NS, 0, 0x13, 0x10, 0x8002, 0, 0x10, 0x8000 },
    { "T 0, address 3", NS, 0, 0x13, 0x10, 0x8003, 0, 0x10, 0x8000 },
    { "T 1, address 1", NS, 0, 0x13, 0x30, 0x8001, 0, 0x30, 0x8000 },
    { "T 1, address 3", NS, 0, 0x13, 0x30, 0x8003, 0, 0x30, 0x8002 },
    { "Hyp, T 1, address 3", NS, 0, 0x1A, 0x30, 0x8003, 0, 0x30, 0x8002 },
    { "LR 0 less 2", NS, 0, 0x13, 0x30, 0, 2, 0x30, 0xFFFFFFFE },
    { "LR 3 less 4", NS, 0, 0x1B, 0x10, 3, 4, 0x10, 0xFFFFFFFC },
    { "LR 7 less 8, T 1", NS, 0, 0x17, 0x30, 7, 8, 0x30, 0xFFFFFFFE },
    { "every field, T 0", NS, 0, 0x13, FIELDS | 0x10, 0xFFFFFFFF, 0, FIELDS | 0x10, 0xFFFFFFFC },
    { "every field, T 1", NS, 0, 0x13, FIELDS | 0x30, 0xFFFFFFFF, 0, FIELDS | 0x30, 0xFFFFFFFE },

    { "illegal: 0x15", NS, 0, 0x13, 0x15, 0x8004, 0, IL | 0x13, 0x8004 },
    { "illegal: 0x1E from Monitor", 0, 0, 0x16, 0x1E, 0x8004, 4, IL | 0x16, 0x8000 },
    { "illegal: bit 4 clear, 0", NS, 0, 0x13, 0, 0x8004, 0, IL | 0x13, 0x8004 },
    { "illegal: bit 4 clear, 0x0A from Hyp", NS, 0, 0x1A, 0x0A, 0x8004, 0, IL | 0x1A, 0x8004 },
    { "illegal: bit 4 clear, 0x03 from Monitor", NS, 0, 0x16, 0x03, 0x8004, 0, IL | 0x16, 0x8004 },
    { "illegal: NS EL1 to Hyp", NS, 0, 0x13, 0x1A, 0x8004, 0, IL | 0x13, 0x8004 },
    { "illegal: NS EL1 to Monitor", NS, 0, 0x17, 0x16, 0x8008, 8, IL | 0x17, 0x8000 },
    { "illegal: Hyp to Monitor", NS, 0, 0x1A, 0x16, 0x8004, 0, IL | 0x1A, 0x8004 },
    { "illegal: Secure EL1 to Hyp", 0, 0, 0x13, 0x1A, 0x8004, 0, IL | 0x13, 0x8004 },
    { "illegal: Monitor to Hyp, NS 0", 0, 0, 0x16, 0x1A, 0x8004, 0, IL | 0x16, 0x8004 },
    { "illegal: Hyp to Supervisor, TGE 1", NS, TGE, 0x1A, 0x13, 0x8004, 0, IL | 0x1A, 0x8004 },
    { "illegal: Hyp to System, TGE 1", NS, TGE, 0x1A, 0x1F, 0x8004, 0, IL | 0x1A, 0x8004 },
    { "illegal: Monitor to Supervisor, NS 1, TGE 1", NS, TGE, 0x16, 0x13, 0x8004, 0, IL | 0x16, 0x8004 },
    { "illegal: Monitor to System, NS 1, TGE 1", NS, TGE, 0x16, 0x1F, 0x8004, 0, IL | 0x16, 0x8004 },
    { "illegal: IL was 1, T 1, address 3", NS, 0, 0x12, IL | 0x3A, 0x8003, 0, IL | 0x32, 0x8002 },
    { "illegal: every field but IL", NS, 0, 0x11, (FIELDS & ~IL) | 0x16, 0x8003, 0, FIELDS | 0x11, 0x8000 },
};

/* No. 9: returns that are refused; BAD_STATE for the saved word goes before BAD_EVENT, and that before NOT_HERE. */
struct refused_return {
    const char *name;
    uint32_t scr, mode, saved, a, b, number;
};

#define BIT(number) (UINT32_C(1) << (number))

static const struct refused_return REFUSED_RETURNS[] = {
    { "bit 21", NS, 0x13, BIT(21) | 0x10, 0, 0, POMURICA_BAD_STATE },
    { "bit 22", NS, 0x12, BIT(22) | 0x10, 4, 0, POMURICA_BAD_STATE },
    { "bit 23, from Hyp", NS, 0x1A, BIT(23) | 0x10, 0, 0, POMURICA_BAD_STATE },
    { "bit 24, from Monitor", 0, 0x16, BIT(24) | 0x10, 2, 0, POMURICA_BAD_STATE },
    { "bits 24-21, no mode", NS, 0x1B, 0xFFFFFFE0, 0, 0, POMURICA_BAD_STATE },
    { "bit 21, and A 1", NS, 0x13, BIT(21) | 0x10, 1, 0, POMURICA_BAD_STATE },
    { "bit 24, and B 1", NS, 0x13, BIT(24) | 0x10, 0, 1, POMURICA_BAD_STATE },
    { "bit 22 from Hyp, and A 4", NS, 0x1A, BIT(22) | 0x10, 4, 0, POMURICA_BAD_STATE },
    { "B 1", NS, 0x13, 0x10, 0, 1, POMURICA_BAD_EVENT },
    { "B in its highest bit", NS, 0x13, 0x10, 0, BIT(31), POMURICA_BAD_EVENT },
    { "B 1, from Hyp", NS, 0x1A, 0x10, 0, 1, POMURICA_BAD_EVENT },
    { "A 2, from Hyp", NS, 0x1A, 0x10, 2, 0, POMURICA_BAD_EVENT },
    { "A 4, from Hyp", NS, 0x1A, 0x10, 4, 0, POMURICA_BAD_EVENT },
    { "A 8, from Hyp", NS, 0x1A, 0x10, 8, 0, POMURICA_BAD_EVENT },
    { "A 1", NS, 0x13, 0x10, 1, 0, POMURICA_BAD_EVENT },
    { "A 3", NS, 0x13, 0x10, 3, 0, POMURICA_BAD_EVENT },
    { "A 5", NS, 0x13, 0x10, 5, 0, POMURICA_BAD_EVENT },
    { "A 6", NS, 0x13, 0x10, 6, 0, POMURICA_BAD_EVENT },
    { "A 7", NS, 0x13, 0x10, 7, 0, POMURICA_BAD_EVENT },
    { "A 9", NS, 0x13, 0x10, 9, 0, POMURICA_BAD_EVENT },
    { "A 10", NS, 0x13, 0x10, 10, 0, POMURICA_BAD_EVENT },
    { "A 16", NS, 0x13, 0x10, 16, 0, POMURICA_BAD_EVENT },
    { "A 32", NS, 0x13, 0x10, 32, 0, POMURICA_BAD_EVENT },
    { "A 34", NS, 0x13, 0x10, 34, 0, POMURICA_BAD_EVENT },
    { "A 64 + 8", NS, 0x13, 0x10, 72, 0, POMURICA_BAD_EVENT },
    { "A 256 + 4", NS, 0x13, 0x10, 260, 0, POMURICA_BAD_EVENT },
    { "A in its highest bit", NS, 0x13, 0x10, BIT(31), 0, POMURICA_BAD_EVENT },
    { "A -4", NS, 0x13, 0x10, 0xFFFFFFFC, 0, POMURICA_BAD_EVENT },
    { "A 1, illegal", NS, 0x13, 0x16, 1, 0, POMURICA_BAD_EVENT },
    { "A 1, from User", NS, 0x10, 0, 1, 0, POMURICA_BAD_EVENT },
    { "A 9, from System", NS, 0x1F, 0, 9, 0, POMURICA_BAD_EVENT },
    { "B 1, from User", 0, 0x10, 0, 0, 1, POMURICA_BAD_EVENT },
    { "B 1, from System", 0, 0x1F, 0, 8, 1, POMURICA_BAD_EVENT },
    { "from User", NS, 0x10, 0, 0, 0, POMURICA_NOT_HERE },
    { "A 2, from User", NS, 0x10, 0, 2, 0, POMURICA_NOT_HERE },
    { "A 4, from Secure User", 0, 0x10, 0, 4, 0, POMURICA_NOT_HERE },
    { "A 8, from Secure User", 0, 0x10, 0, 8, 0, POMURICA_NOT_HERE },
    { "from System", NS, 0x1F, 0, 0, 0, POMURICA_NOT_HERE },
    { "A 2, from System", NS, 0x1F, 0, 2, 0, POMURICA_NOT_HERE },
    { "A 4, from Secure System", 0, 0x1F, 0, 4, 0, POMURICA_NOT_HERE },
    { "A 8, from Secure System", 0, 0x1F, 0, 8, 0, POMURICA_NOT_HERE },
};

/* Cases i, j and k, and those of No. 10: a banked read, and the place of the register that a done one shows. */
struct read_case {
    const char *name;
    struct start start;
    uint32_t a, number, place;
};

static const struct read_case READS[] = {
    { "i", { .scr = 1, .cpsr = 0x13, .pc = PC_HERE }, 31, POMURICA_NO_RIGHT, 0 },
    { "i, from 0x16", { .scr = 1, .cpsr = 0x16, .pc = PC_HERE }, 31, POMURICA_DONE, SP_HYP },
    { "j", { .scr = 1, .cpsr = 0x1A, .pc = PC_HERE }, 30, POMURICA_DONE, ELR_HYP },
    { "j, A 62", { .scr = 1, .cpsr = 0x1A, .pc = PC_HERE }, 62, POMURICA_OWN_REGISTER, 0 },
    { "j, A 7", { .scr = 1, .cpsr = 0x1A, .pc = PC_HERE }, 7, POMURICA_NO_REGISTER, 0 },
    { "k", { .cpsr = 0x13, .pc = PC_HERE }, 28, POMURICA_DONE, LR_MON },
    { "SP_svc from Supervisor", { .scr = 1, .cpsr = 0x13, .pc = PC_HERE }, 19, POMURICA_OWN_REGISTER, 0 },
    { "SP_svc from Secure Supervisor", { .cpsr = 0x13, .pc = PC_HERE }, 19, POMURICA_OWN_REGISTER, 0 },
    { "SP_mon from Supervisor", { .scr = 1, .cpsr = 0x13, .pc = PC_HERE }, 29, POMURICA_NO_RIGHT, 0 },
    { "SP_mon from Monitor", { .scr = 1, .cpsr = 0x16, .pc = PC_HERE }, 29, POMURICA_OWN_REGISTER, 0 },
    { "SP_hyp from Hyp", { .scr = 1, .cpsr = 0x1A, .pc = PC_HERE }, 31, POMURICA_OWN_REGISTER, 0 },
    { "LR_usr from Hyp", { .scr = 1, .cpsr = 0x1A, .pc = PC_HERE }, 6, POMURICA_OWN_REGISTER, 0 },
    { "SP_usr from Hyp", { .scr = 1, .cpsr = 0x1A, .pc = PC_HERE }, 5, POMURICA_DONE, SP_USR },
    { "ELR_hyp from System", { .scr = 1, .cpsr = 0x1F, .pc = PC_HERE }, 30, POMURICA_NO_RIGHT, 0 },
    { "SP_usr from System", { .scr = 1, .cpsr = 0x1F, .pc = PC_HERE }, 5, POMURICA_OWN_REGISTER, 0 },
    { "R8_usr from FIQ", { .scr = 1, .cpsr = 0x11, .pc = PC_HERE }, 0, POMURICA_DONE, R8_USR },
    { "R8_fiq from FIQ", { .scr = 1, .cpsr = 0x11, .pc = PC_HERE }, 8, POMURICA_OWN_REGISTER, 0 },
    { "R8_usr from User", { .scr = 1, .cpsr = 0x10, .pc = PC_HERE }, 0, POMURICA_NO_RIGHT, 0 },
    { "SP_usr from Secure User", { .cpsr = 0x10, .pc = PC_HERE }, 5, POMURICA_NO_RIGHT, 0 },
};

#define COUNT(rows) (sizeof(rows) / sizeof((rows)[0]))

/* The bytes that an answer buffer holds before a call. */
static const uint8_t OLD_ANSWER[POMURICA_ANSWER_SIZE] = { 1, 2, 3, 4, 5, 6, 7, 8 };

/* A call of the step on lent copies, and what came of it. */
struct call {
    struct lent block, answer;
    uint32_t number;
    bool guards_kept;
};

static void call_step(struct call *call, const uint8_t *block, size_t block_len,
                      uint32_t code, uint32_t a, uint32_t b,
                      const uint8_t *answer, size_t answer_len)
{
    uint8_t *lent_block = lend(&call->block, block, block_len, block_len % 16);
    uint8_t *lent_answer = lend(&call->answer, answer, answer_len, answer_len % 16);

    call->number = pomurica_step(lent_block, block_len, code, a, b, lent_answer, answer_len);
    call->guards_kept = take_back(&call->block);
    call->guards_kept = take_back(&call->answer) && call->guards_kept;
}

/* A call with both buffers of their sizes: it answers as it returns and keeps the guards. */
static void call_whole(struct call *call, const char *name, const uint8_t *block,
                       uint32_t code, uint32_t a, uint32_t b)
{
    call_step(call, block, POMURICA_BLOCK_SIZE, code, a, b, OLD_ANSWER, POMURICA_ANSWER_SIZE);
    check(call->guards_kept, "%s: a guard byte changed", name);
    check(pomurica_get_word(bytes_of(&call->answer), 0) == call->number,
          "%s: number written %u, returned %u", name,
          pomurica_get_word(bytes_of(&call->answer), 0), call->number);
}

static void check_value(const struct call *call, const char *name, uint32_t value)
{
    const uint32_t given = pomurica_get_word(bytes_of(&call->answer), 1);

    check(given == value, "%s: value 0x%X, not 0x%X", name, given, value);
}

static void put_start(uint8_t *block, const struct start *start)
{
    pomurica_put_word(block, SCR, start->scr);
    pomurica_put_word(block, HCR, start->hcr);
    pomurica_put_word(block, CPSR, start->cpsr);
    pomurica_put_word(block, PC, start->pc);
    pomurica_put_word(block, VBAR_NS, start->vbar_ns);
    pomurica_put_word(block, HDCR, start->hdcr);
}

static void run_entry(const struct worked_case *worked)
{
    uint8_t block[POMURICA_BLOCK_SIZE] = { 0 };
    struct call call;

    put_start(block, &worked->start);
    call_whole(&call, worked->name, block, worked->code, worked->a, 0);
    check(call.number == worked->number, "%s: number %u", worked->name, call.number);
    check_value(&call, worked->name, worked->value);
    for (size_t i = 0; i < worked->named_count; i++) {
        const struct named_word *named = &worked->named[i];
        const uint32_t word = pomurica_get_word(bytes_of(&call.block), named->place);

        check(word == named->word, "%s: place %u holds 0x%X, not 0x%X",
              worked->name, named->place, word, named->word);
    }
    if (worked->value == 0)
        check(is_unchanged(&call.block), "%s: the block changed", worked->name);
}

static void run_refused_call(const struct refused_call *refused)
{
    const struct worked_case worked = {
        .name = refused->name,
        .start = { .scr = refused->scr, .hcr = refused->hcr, .cpsr = refused->cpsr, .pc = PC_HERE },
        .code = refused->code, .a = refused->a, .number = refused->number,
    };

    run_entry(&worked);
}

/* From Non-secure Supervisor with this SCR a call is done or DISABLED, as it has to be. */
static void run_call(uint32_t code, uint32_t scr, bool enabled)
{
    const struct start start = { .scr = scr, .cpsr = 0x13, .pc = PC_HERE };
    uint8_t block[POMURICA_BLOCK_SIZE] = { 0 };
    char name[32];
    struct call call;

    snprintf(name, sizeof name, "code %u, SCR 0x%X", code, scr);
    put_start(block, &start);
    call_whole(&call, name, block, code, 0, 0);
    check(call.number == (enabled ? POMURICA_DONE : POMURICA_DISABLED), "%s: number %u", name, call.number);
    check(is_unchanged(&call.block) != enabled, "%s: the block changed, or did not", name);
}

/* Each bit of SCR but NS alone, and all but it: only SCD disables an SMC, only HCE enables an HVC. */
static void run_bits(void)
{
    for (uint32_t bit = NS << 1; bit != 0; bit <<= 1) {
        run_call(SMC, NS | bit, bit != SCD);
        run_call(SMC, ~bit, bit == SCD);
        run_call(HVC, NS | bit, bit == HCE);
        run_call(HVC, ~bit, bit != HCE);
    }
}

/* From Non-secure User with this HDCR a debug abort goes to Hyp, or to Abort. */
static void run_debug(uint32_t hdcr, bool is_led)
{
    const struct start start = { .scr = NS, .hdcr = hdcr, .cpsr = 0x10, .pc = PC_HERE };
    uint8_t block[POMURICA_BLOCK_SIZE] = { 0 };
    char name[32];
    struct call call;

    snprintf(name, sizeof name, "HDCR 0x%X", hdcr);
    put_start(block, &start);
    call_whole(&call, name, block, PREFETCH_ABORT, DEBUG, 0);
    check_value(&call, name, is_led ? 0x1A14 : 0x170C);
    check(pomurica_get_word(bytes_of(&call.block), HDCR) == hdcr, "%s: HDCR changed", name);
}

/* Each bit of HDCR alone, and all but it: only TDE counts. */
static void run_debug_bits(void)
{
    for (uint32_t bit = 1; bit != 0; bit <<= 1) {
        run_debug(bit, bit == TDE);
        run_debug(~bit, bit != TDE);
    }
}

static void run_bad_debugs(void)
{
    for (size_t i = 0; i < COUNT(BAD_DEBUGS); i++) {
        uint8_t block[POMURICA_BLOCK_SIZE] = { 0 };
        struct call call;

        put_start(block, &(struct start){ .scr = NS, .hdcr = TDE, .cpsr = 0x10, .pc = PC_HERE });
        call_whole(&call, BAD_DEBUGS[i].name, block, BAD_DEBUGS[i].code, BAD_DEBUGS[i].a, BAD_DEBUGS[i].b);
        check(call.number == POMURICA_BAD_EVENT && is_unchanged(&call.block), "%s: number %u", BAD_DEBUGS[i].name,
              call.number);
        check_value(&call, BAD_DEBUGS[i].name, 0);
    }
}

/* Every A that has a virtual line, from everywhere: refused, whatever other line is there. */
static void run_lines(void)
{
    for (size_t i = 0; i < COUNT(LINES_IN); i++)
        for (uint32_t lines = POMURICA_ALL_LINES + 1; lines <= POMURICA_OLD_ALL_LINES; lines++)
            run_entry(&(struct worked_case){
                .name = LINES_IN[i].name,
                .start = { .scr = LINES_IN[i].scr, .hcr = LINES_IN[i].hcr, .cpsr = LINES_IN[i].cpsr, .pc = PC_HERE },
                .code = CHECK, .a = lines, .number = LINES_IN[i].number,
            });
}

/* A note on HDCR: any word, from any mode. */
static void run_note(uint32_t cpsr, uint32_t word)
{
    uint8_t block[POMURICA_BLOCK_SIZE] = { 0 };
    struct call call;

    put_start(block, &(struct start){ .scr = NS, .hdcr = TDE, .cpsr = cpsr, .pc = PC_HERE });
    call_whole(&call, "note on HDCR", block, NOTE, HDCR, word);
    check_value(&call, "note on HDCR", 0);
    pomurica_put_word(block, HDCR, word);
    check(call.number == POMURICA_DONE && memcmp(bytes_of(&call.block), block, sizeof block) == 0,
          "note of 0x%X from 0x%X: number %u", word, cpsr, call.number);
}

/* A block that returns from the mode so.  In every other word all bits are set: also in the SPSR of every other mode. */
static void put_return(uint8_t *block, uint32_t scr, uint32_t hcr, uint32_t mode, uint32_t saved, uint32_t link)
{
    memset(block, 0xFF, POMURICA_BLOCK_SIZE);
    pomurica_put_word(block, SCR, scr);
    pomurica_put_word(block, HCR, hcr);
    pomurica_put_word(block, CPSR, mode);
    if (mode == POMURICA_MODE_USER || mode == POMURICA_MODE_SYSTEM)
        return;
    pomurica_put_word(block, SAVING[mode].spsr, saved);
    pomurica_put_word(block, SAVING[mode].link, link);
}

/* A done return changes CPSR and PC, and has the value 0. */
static void run_return(const struct done_return *done)
{
    uint8_t block[POMURICA_BLOCK_SIZE];
    struct call call;

    put_return(block, done->scr, done->hcr, done->mode, done->saved, done->link);
    call_whole(&call, done->name, block, RETURN, done->a, 0);
    check(call.number == POMURICA_DONE, "%s: number %u", done->name, call.number);
    check_value(&call, done->name, 0);
    pomurica_put_word(block, CPSR, done->cpsr);
    pomurica_put_word(block, PC, done->pc);
    check(memcmp(bytes_of(&call.block), block, sizeof block) == 0, "%s: CPSR 0x%X, PC 0x%X, or another word", done->name,
          pomurica_get_word(bytes_of(&call.block), CPSR), pomurica_get_word(bytes_of(&call.block), PC));
}

static void run_refused_return(const struct refused_return *refused)
{
    uint8_t block[POMURICA_BLOCK_SIZE];
    struct call call;

    put_return(block, refused->scr, 0, refused->mode, refused->saved, 0x8004);
    call_whole(&call, refused->name, block, RETURN, refused->a, refused->b);
    check(call.number == refused->number, "%s: number %u", refused->name, call.number);
    check_value(&call, refused->name, 0);
    check(is_unchanged(&call.block), "%s: the block changed", refused->name);
}

/* No. 9: what code that handles an exception takes off LR to return behind an SVC, and else to what was interrupted. */
static uint32_t taken_off(uint32_t code, uint32_t target, uint32_t cpsr)
{
    if (target == POMURICA_MODE_HYP || code == SVC)
        return 0;
    if (code == UNDEFINED)
        return (cpsr & POMURICA_CPSR_T) != 0 ? 2 : 4;
    return code == PREFETCH_ABORT ? 4 : 8;
}

/* An entry and its return: CPSR is as it was, masks and mode among its bits, and so is PC, or it is behind the SVC. */
static void run_there_and_back(uint32_t scr, uint32_t hcr, uint32_t cpsr, uint32_t code, uint32_t a, uint32_t hdcr)
{
    const uint32_t behind = code != SVC ? 0 : (cpsr & POMURICA_CPSR_T) != 0 ? 2 : 4;
    uint8_t block[POMURICA_BLOCK_SIZE] = { 0 };
    char name[100];
    struct call entry, back;
    uint32_t target;

    snprintf(name, sizeof name, "code %u, A %u, CPSR 0x%X, SCR 0x%X, HCR 0x%X, HDCR 0x%X", code, a, cpsr, scr, hcr,
             hdcr);
    put_start(block, &(struct start){ .scr = scr, .hcr = hcr, .cpsr = cpsr, .pc = PC_HERE, .hdcr = hdcr });
    call_whole(&entry, name, block, code, a, 0);
    target = pomurica_get_word(bytes_of(&entry.answer), POMURICA_ANSWER_VALUE) >> 8 & POMURICA_CPSR_MODE;
    call_whole(&back, name, bytes_of(&entry.block), RETURN, taken_off(code, target, cpsr), 0);
    check(entry.number == POMURICA_DONE && back.number == POMURICA_DONE, "%s: numbers %u, %u", name, entry.number,
          back.number);
    check(pomurica_get_word(bytes_of(&back.block), CPSR) == cpsr &&
              pomurica_get_word(bytes_of(&back.block), PC) == PC_HERE + behind,
          "%s: back with CPSR 0x%X, PC 0x%X", name, pomurica_get_word(bytes_of(&back.block), CPSR),
          pomurica_get_word(bytes_of(&back.block), PC));
}

/* A debug abort, with TDE and without, from User of both states, and to Hyp from Non-secure EL1. */
static void run_debug_trips(uint32_t fields)
{
    for (uint32_t hdcr = 0; hdcr <= TDE; hdcr += TDE) {
        run_there_and_back(0, 0, fields | POMURICA_MODE_USER, PREFETCH_ABORT, DEBUG, hdcr);
        run_there_and_back(NS, 0, fields | POMURICA_MODE_USER, PREFETCH_ABORT, DEBUG, hdcr);
        run_there_and_back(NS, TGE, fields | POMURICA_MODE_USER, PREFETCH_ABORT, DEBUG, hdcr);
    }
    run_there_and_back(NS, 0, fields | POMURICA_MODE_SUPERVISOR, PREFETCH_ABORT, DEBUG, TDE);
    run_there_and_back(NS, 0, fields | POMURICA_MODE_SYSTEM, PREFETCH_ABORT, DEBUG, TDE);
}

/* From User to the modes that codes 1, 2, 5 and 6 enter, with TGE to Hyp; and to Hyp by stage 2, from Non-secure EL1 too. */
static void run_round_trips(void)
{
    static const uint32_t CODES[] = { UNDEFINED, SVC, PREFETCH_ABORT, DATA_ABORT };

    for (uint32_t i = 0; i < COUNT(CODES) * BIT(4); i++) {
        const uint32_t code = CODES[i % COUNT(CODES)];
        const uint32_t fields = i / COUNT(CODES) * POMURICA_CPSR_T; /* T F I A */

        run_there_and_back(0, 0, fields | POMURICA_MODE_USER, code, 0, 0);
        run_there_and_back(0, TGE, fields | POMURICA_MODE_USER, code, 0, 0);
        run_there_and_back(NS, 0, fields | POMURICA_MODE_USER, code, 0, 0);
        run_there_and_back(NS, TGE, fields | POMURICA_MODE_USER, code, 0, 0);
        if (code == PREFETCH_ABORT)
            run_debug_trips(fields);
        if (code == UNDEFINED || code == SVC)
            continue;
        run_there_and_back(NS, 0, fields | POMURICA_MODE_USER, code, POMURICA_ABORT_STAGE_2, 0);
        run_there_and_back(NS, 0, fields | POMURICA_MODE_SUPERVISOR, code, POMURICA_ABORT_STAGE_2, 0);
        run_there_and_back(NS, 0, fields | POMURICA_MODE_SYSTEM, code, POMURICA_ABORT_STAGE_2, 0);
    }
}

/* On a block whose other words are as given: a read changes no byte and shows its own register. */
static void run_read(const struct read_case *worked, uint8_t *block)
{
    struct call call;

    put_start(block, &worked->start);
    call_whole(&call, worked->name, block, READ, worked->a, 0);
    check(call.number == worked->number, "%s: number %u", worked->name, call.number);
    check(is_unchanged(&call.block), "%s: the block changed", worked->name);
    check_value(&call, worked->name,
                worked->number == POMURICA_DONE ? pomurica_get_word(block, worked->place) : 0);
}

static void run_reads(bool every_word)
{
    for (size_t i = 0; i < COUNT(READS); i++) {
        uint8_t block[POMURICA_BLOCK_SIZE] = { 0 };

        for (uint32_t place = 0; every_word && place < POMURICA_PLACES; place++)
            pomurica_put_word(block, place, 0x11110001 + place * 0x01010101);
        run_read(&READS[i], block);
    }
}

/* A call with a buffer of another size: BAD_SIZE, and neither buffer changes. */
static void run_wrong_size(size_t block_len, size_t answer_len)
{
    static uint8_t bytes[LENT_MOST];
    struct call call;

    memset(bytes, 0x5C, sizeof bytes);
    call_step(&call, bytes, block_len, SVC, 0, 0, bytes, answer_len);
    check(call.number == POMURICA_BAD_SIZE && call.guards_kept &&
              is_unchanged(&call.block) && is_unchanged(&call.answer),
          "block of %zu bytes, answer of %zu: number %u", block_len, answer_len, call.number);
}

static void run_lengths(void)
{
    for (size_t block_len = 0; block_len <= LONGEST_TRIED; block_len++) {
        for (size_t answer_len = 0; answer_len <= LONGEST_TRIED; answer_len++) {
            if (block_len != POMURICA_BLOCK_SIZE || answer_len != POMURICA_ANSWER_SIZE)
                run_wrong_size(block_len, answer_len);
        }
    }
}

/* NULL for each buffer, and for both, with length 0. */
static void run_null(void)
{
    uint8_t block[POMURICA_BLOCK_SIZE] = { 0 };
    uint8_t answer[POMURICA_ANSWER_SIZE] = { 0 };
    uint8_t untouched[POMURICA_BLOCK_SIZE] = { 0 };

    check(pomurica_step(NULL, 0, SVC, 0, 0, answer, sizeof answer) == POMURICA_BAD_SIZE,
          "no block");
    check(pomurica_step(block, sizeof block, SVC, 0, 0, NULL, 0) == POMURICA_BAD_SIZE,
          "no answer buffer");
    check(pomurica_step(NULL, 0, SVC, 0, 0, NULL, 0) == POMURICA_BAD_SIZE, "neither");
    check(memcmp(answer, untouched, sizeof answer) == 0, "the answer buffer changed");
    check(memcmp(block, untouched, sizeof block) == 0, "the block changed");
}

int main(void)
{
    group("worked cases a to h");
    for (size_t i = 0; i < COUNT(ENTRIES); i++)
        run_entry(&ENTRIES[i]);
    group("worked cases i to k");
    run_reads(false);
    group("worked cases i to k, a different word at every place");
    run_reads(true);
    group("calls that the disable bits leave, and calls that are refused");
    for (size_t i = 0; i < COUNT(CALLS); i++)
        run_entry(&CALLS[i]);
    for (size_t i = 0; i < COUNT(REFUSED_CALLS); i++)
        run_refused_call(&REFUSED_CALLS[i]);
    group("calls with each bit of SCR alone, and with all but it");
    run_bits();
    group("debug aborts, and what is beside them");
    for (size_t i = 0; i < COUNT(DEBUGS); i++)
        run_entry(&DEBUGS[i]);
    group("debug aborts with each bit of HDCR alone, and with all but it");
    run_debug_bits();
    group("debug with another bit, or with B, and other events that are none");
    run_bad_debugs();
    group("notes on HDCR");
    run_note(POMURICA_MODE_USER, 0);
    run_note(POMURICA_MODE_SUPERVISOR, UINT32_MAX);
    run_note(POMURICA_MODE_HYP, 0x12345678);
    run_note(POMURICA_MODE_MONITOR, TDE);
    group("virtual interrupts by HCR, and checks with a virtual line");
    for (size_t i = 0; i < COUNT(SIGNALS); i++)
        run_entry(&SIGNALS[i]);
    run_lines();
    group("returns, legal and illegal");
    for (size_t i = 0; i < COUNT(RETURNS); i++)
        run_return(&RETURNS[i]);
    group("returns that are refused");
    for (size_t i = 0; i < COUNT(REFUSED_RETURNS); i++)
        run_refused_return(&REFUSED_RETURNS[i]);
    group("entries of codes 1, 2, 5 and 6, and back");
    run_round_trips();
    group("every length of both buffers from 0 to 210");
    run_lengths();
    group("NULL with length 0");
    run_null();
    return summary();
}
