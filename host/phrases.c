/* Words for what stands in a trace: see phrases.h. */
#include "phrases.h"

#include "layout.h"
#include "pomurica.h"
#include "record.h"

#include <inttypes.h>
#include <stdbool.h>
#include <stddef.h>

static const char *const REGISTERS[POMURICA_PLACES] = {
    "R8_usr", "R9_usr", "R10_usr", "R11_usr", "R12_usr", "SP_usr", "LR_usr",
    "R8_fiq", "R9_fiq", "R10_fiq", "R11_fiq", "R12_fiq", "SP_fiq", "LR_fiq",
    "LR_irq", "SP_irq", "LR_svc", "SP_svc", "LR_abt", "SP_abt", "LR_und", "SP_und",
    "LR_mon", "SP_mon", "ELR_hyp", "SP_hyp",
    "SPSR_fiq", "SPSR_irq", "SPSR_svc", "SPSR_abt", "SPSR_und", "SPSR_mon", "SPSR_hyp",
    "CPSR", "PC", "SCR", "HCR", "SCTLR_s", "SCTLR_ns", "HSCTLR", "VBAR_s", "VBAR_ns", "HVBAR", "MVBAR", "HDCR",
};

/*
 * The register that SYSm names, by its bits 2-0 and 4-3: Arm's Tables F5-116
 * and F5-117, where an empty cell is CONSTRAINED UNPREDICTABLE.
 */
#define NONE NULL

static const char *const CELLS_R_0[8][4] = {
    { "R8_usr", "R8_fiq", "LR_irq", NONE },
    { "R9_usr", "R9_fiq", "SP_irq", NONE },
    { "R10_usr", "R10_fiq", "LR_svc", NONE },
    { "R11_usr", "R11_fiq", "SP_svc", NONE },
    { "R12_usr", "R12_fiq", "LR_abt", "LR_mon" },
    { "SP_usr", "SP_fiq", "SP_abt", "SP_mon" },
    { "LR_usr", "LR_fiq", "LR_und", "ELR_hyp" },
    { NONE, NONE, "SP_und", "SP_hyp" },
};

static const char *const CELLS_R_1[8][4] = {
    { NONE, NONE, "SPSR_irq", NONE },
    { NONE, NONE, NONE, NONE },
    { NONE, NONE, "SPSR_svc", NONE },
    { NONE, NONE, NONE, NONE },
    { NONE, NONE, "SPSR_abt", "SPSR_mon" },
    { NONE, NONE, NONE, NONE },
    { NONE, "SPSR_fiq", "SPSR_und", "SPSR_hyp" },
    { NONE, NONE, NONE, NONE },
};

/* The most that A of an event may be, where it has one (document 01, "Events") and the layout does not decide it. */
enum {
    MOST_OF_DATA_ABORT = POMURICA_ABORT_EXTERNAL | POMURICA_ABORT_STAGE_2,
    MOST_CELL = 63 /* 32 * R + SYSm */
};

static const char *const LINES[] = { "SError", "FIQ", "IRQ", "virtual FIQ", "virtual IRQ" };

static const char *const EXCEPTIONS[] = {
    "", "SError: ", "FIQ: ", "IRQ: ", "virtual SError: ", "virtual FIQ: ", "virtual IRQ: ",
};

#define COUNT_OF(array) (sizeof(array) / sizeof *(array))

const char *mode_name(uint32_t mode)
{
    switch (mode) {
    case POMURICA_MODE_USER: return "User";
    case POMURICA_MODE_FIQ: return "FIQ";
    case POMURICA_MODE_IRQ: return "IRQ";
    case POMURICA_MODE_SUPERVISOR: return "Supervisor";
    case POMURICA_MODE_MONITOR: return "Monitor";
    case POMURICA_MODE_ABORT: return "Abort";
    case POMURICA_MODE_HYP: return "Hyp";
    case POMURICA_MODE_UNDEFINED: return "Undefined";
    case POMURICA_MODE_SYSTEM: return "System";
    default: return NULL;
    }
}

const char *event_name(uint32_t code)
{
    switch (code) {
    case POMURICA_EVENT_UNDEFINED: return "Undefined Instruction";
    case POMURICA_EVENT_SVC: return "SVC";
    case POMURICA_EVENT_SMC: return "SMC";
    case POMURICA_EVENT_HVC: return "HVC";
    case POMURICA_EVENT_PREFETCH_ABORT: return "Prefetch Abort";
    case POMURICA_EVENT_DATA_ABORT: return "Data Abort";
    case POMURICA_EVENT_HYP_TRAP: return "Hyp Trap";
    case POMURICA_EVENT_MONITOR_TRAP: return "Monitor Trap";
    case POMURICA_EVENT_INTERRUPT_CHECK: return "interrupt check";
    case POMURICA_EVENT_BANKED_READ: return "banked read";
    case POMURICA_EVENT_BANKED_WRITE: return "banked write";
    case POMURICA_EVENT_NOTE: return "note";
    case POMURICA_EVENT_RETURN: return "exception return";
    default: return NULL;
    }
}

const char *register_name(uint32_t place)
{
    return REGISTERS[place];
}

const char *banked_name(uint32_t a)
{
    const uint32_t r = a >> 5, row = a & 7, column = a >> 3 & 3;

    if (a > MOST_CELL)
        return NULL;
    return r == 0 ? CELLS_R_0[row][column] : CELLS_R_1[row][column];
}

const char *part_name(uint32_t part)
{
    if (part == POMURICA_PART_NUMBER)
        return "answer number";
    return part == POMURICA_PART_VALUE ? "answer value" : register_name(part - POMURICA_PART_BLOCK);
}

static void tell_acceptance(FILE *out, uint32_t steps, uint32_t done)
{
    fprintf(out, "accepted, %" PRIu32 " Steps", steps);
    if (steps > 0)
        fprintf(out, ": %" PRIu32 " done, %" PRIu32 " refused", done, steps - done);
}

void tell_verdict(FILE *out, const uint8_t *report, uint32_t done)
{
    const uint32_t number = pomurica_get_word(report, POMURICA_REPORT_NUMBER);
    const uint32_t place = pomurica_get_word(report, POMURICA_REPORT_PLACE);
    const uint32_t steps = pomurica_get_word(report, POMURICA_REPORT_STEPS);

    if (number == POMURICA_DONE)
        tell_acceptance(out, steps, done);
    else
        fprintf(out, "refused %" PRIu32 " %s at byte %" PRIu32 " after %" PRIu32 " Steps", number,
                pomurica_number_name(number), place, steps);
}

const char *warning_of(const uint8_t *report, uint32_t done)
{
    const bool accepted = pomurica_get_word(report, POMURICA_REPORT_NUMBER) == POMURICA_DONE;

    if (!accepted || done > 0)
        return NULL;
    return "warning: no Step was done, so the trace shows nothing of what the unit runs";
}

static void tell_lines(FILE *out, uint32_t lines)
{
    const char *before = ", lines ";

    if (lines == 0)
        fputs(", no line", out);
    for (size_t i = 0; i < COUNT_OF(LINES); i++)
        if (lines >> i & 1) {
            fprintf(out, "%s%s", before, LINES[i]);
            before = " and ";
        }
}

static void tell_cell(FILE *out, uint32_t a)
{
    if (banked_name(a) != NULL)
        fputs(banked_name(a), out);
    else
        fprintf(out, "no register (R %" PRIu32 " SYSm 0x%02" PRIX32 ")", a >> 5, a & 31);
}

/* What the operands of an event say, behind its name, where they are in their ranges. */
static void tell_operands(FILE *out, uint32_t code, uint32_t a, uint32_t b)
{
    switch (code) {
    case POMURICA_EVENT_PREFETCH_ABORT:
    case POMURICA_EVENT_DATA_ABORT:
        fputs(a & POMURICA_ABORT_STAGE_2 ? " of stage 2" : "", out);
        break;
    case POMURICA_EVENT_INTERRUPT_CHECK:
        tell_lines(out, a);
        break;
    case POMURICA_EVENT_BANKED_READ:
        fputs(" of ", out);
        tell_cell(out, a);
        break;
    case POMURICA_EVENT_BANKED_WRITE:
        fprintf(out, " of 0x%08" PRIX32 " to ", b);
        tell_cell(out, a);
        break;
    case POMURICA_EVENT_NOTE:
        fprintf(out, ": %s becomes 0x%08" PRIX32, register_name(a), b);
        break;
    case POMURICA_EVENT_RETURN:
        if (a > 0)
            fprintf(out, ", LR less %" PRIu32, a);
        break;
    default:
        break;
    }
}

/* The most that A may be in a layout; 0 where it must be 0.  A of a return goes by is_taken_off. */
static uint32_t most_a(const struct layout *layout, uint32_t code)
{
    switch (code) {
    case POMURICA_EVENT_PREFETCH_ABORT: return layout->most_of_prefetch;
    case POMURICA_EVENT_DATA_ABORT: return MOST_OF_DATA_ABORT;
    case POMURICA_EVENT_INTERRUPT_CHECK: return layout->lines;
    case POMURICA_EVENT_BANKED_READ:
    case POMURICA_EVENT_BANKED_WRITE: return MOST_CELL;
    case POMURICA_EVENT_NOTE: return layout->places - 1;
    default: return 0;
    }
}

/* The same of B, which may be any word where it is the new one. */
static uint32_t most_b(uint32_t code)
{
    return code == POMURICA_EVENT_BANKED_WRITE || code == POMURICA_EVENT_NOTE ? UINT32_MAX : 0;
}

/* Whether A of a return is an amount that may be taken off LR; the address from Hyp, ELR_hyp, stands as it is. */
static bool is_taken_off(uint32_t mode, uint32_t a)
{
    return a == 0 || (mode != POMURICA_MODE_HYP && (a == 2 || a == 4 || a == 8));
}

static bool is_right_a(const uint8_t *step)
{
    const uint32_t code = pomurica_get_word(step, POMURICA_STEP_CODE), a = pomurica_get_word(step, POMURICA_STEP_A);

    if (code == POMURICA_EVENT_RETURN)
        return is_taken_off(mode_of(block_before(step)), a);
    return a <= most_a(layout_of(step), code);
}

/* What is wrong with an operand, if anything. */
static void tell_excess(FILE *out, char operand, uint32_t word, uint32_t most)
{
    if (word <= most)
        return;
    fprintf(out, ", %c %" PRIu32, operand, word);
    if (most == 0)
        fputs(", which must be 0", out);
    else
        fprintf(out, ", above %" PRIu32, most);
}

/* What is wrong with A, if anything. */
static void tell_wrong_a(FILE *out, const uint8_t *step)
{
    const uint32_t code = pomurica_get_word(step, POMURICA_STEP_CODE), a = pomurica_get_word(step, POMURICA_STEP_A);
    const uint32_t mode = mode_of(block_before(step));

    if (code != POMURICA_EVENT_RETURN)
        tell_excess(out, 'A', a, most_a(layout_of(step), code));
    else if (!is_taken_off(mode, a))
        fprintf(out, ", A %" PRIu32 ", which must be 0%s", a, mode == POMURICA_MODE_HYP ? " from Hyp" : ", 2, 4 or 8");
}

/* What an abort is by A, before its name; that it is of stage 2 stands behind it.  Nothing of any other event. */
static const char *kind_of_abort(uint32_t code, uint32_t a)
{
    if (code != POMURICA_EVENT_PREFETCH_ABORT && code != POMURICA_EVENT_DATA_ABORT)
        return "";
    if (a & POMURICA_ABORT_DEBUG)
        return "debug ";
    return a & POMURICA_ABORT_EXTERNAL ? "external " : "";
}

void tell_event(FILE *out, const uint8_t *step)
{
    const uint32_t code = pomurica_get_word(step, POMURICA_STEP_CODE);
    const uint32_t a = pomurica_get_word(step, POMURICA_STEP_A), b = pomurica_get_word(step, POMURICA_STEP_B);
    const bool in_range = is_right_a(step);

    if (event_name(code) == NULL) {
        fprintf(out, "event of code %" PRIu32 ", which is none", code);
        return;
    }
    fprintf(out, "%s%s", in_range ? kind_of_abort(code, a) : "", event_name(code));
    if (in_range)
        tell_operands(out, code, a, b);
    else if (most_b(code) > 0) /* A says of no place that it takes the word */
        fprintf(out, " of 0x%08" PRIX32, b);
    tell_wrong_a(out, step);
    tell_excess(out, 'B', b, most_b(code));
}

void tell_event_words(FILE *out, const uint8_t *step)
{
    fprintf(out, "code %" PRIu32 ", A 0x%08" PRIX32 ", B 0x%08" PRIX32, pomurica_get_word(step, POMURICA_STEP_CODE),
            pomurica_get_word(step, POMURICA_STEP_A), pomurica_get_word(step, POMURICA_STEP_B));
}

static bool has_ns(const uint8_t *block)
{
    return pomurica_get_word(block, POMURICA_PLACE_SCR) & POMURICA_SCR_NS;
}

/* The mode of a block, with the state that NS gives it. */
static void tell_mode(FILE *out, const uint8_t *block)
{
    const uint32_t mode = mode_of(block);

    if (mode_name(mode) == NULL)
        fprintf(out, "mode 0x%02" PRIX32 ", which is none", mode);
    else if (mode == POMURICA_MODE_MONITOR)
        fprintf(out, "Monitor with NS %d", has_ns(block));
    else
        fprintf(out, "%s %s", has_ns(block) ? "Non-secure" : "Secure", mode_name(mode));
}

void tell_state(FILE *out, const uint8_t *block)
{
    const uint32_t cpsr = pomurica_get_word(block, POMURICA_PLACE_CPSR);

    tell_mode(out, block);
    if (cpsr & (POMURICA_CPSR_A | POMURICA_CPSR_I | POMURICA_CPSR_F))
        fprintf(out, ", masked%s%s%s", cpsr & POMURICA_CPSR_A ? " A" : "", cpsr & POMURICA_CPSR_I ? " I" : "",
                cpsr & POMURICA_CPSR_F ? " F" : "");
    else
        fputs(", nothing masked", out);
}

static void tell_entry(FILE *out, uint32_t value)
{
    const uint32_t which = value >> 16, mode = value >> 8 & 0xFF;

    fprintf(out, "%senters %s mode at 0x%02" PRIX32, which < COUNT_OF(EXCEPTIONS) ? EXCEPTIONS[which] : "",
            mode_name(mode) == NULL ? "no" : mode_name(mode), value & 0xFF);
}

/* The place of a mode's saved word, its SPSR; POMURICA_PLACES for User, System, and a mode that is none. */
static uint32_t saved_place(uint32_t mode)
{
    switch (mode) {
    case POMURICA_MODE_FIQ: return POMURICA_PLACE_SPSR_FIQ;
    case POMURICA_MODE_IRQ: return POMURICA_PLACE_SPSR_IRQ;
    case POMURICA_MODE_SUPERVISOR: return POMURICA_PLACE_SPSR_SVC;
    case POMURICA_MODE_ABORT: return POMURICA_PLACE_SPSR_ABT;
    case POMURICA_MODE_UNDEFINED: return POMURICA_PLACE_SPSR_UND;
    case POMURICA_MODE_MONITOR: return POMURICA_PLACE_SPSR_MON;
    case POMURICA_MODE_HYP: return POMURICA_PLACE_SPSR_HYP;
    default: return POMURICA_PLACES;
    }
}

/* Two of the states that a block may not be in, nor a return lead to: whether it would be there in this mode of the nine. */
static bool is_hyp_with_ns_0(const uint8_t *block, uint32_t mode)
{
    return mode == POMURICA_MODE_HYP && !has_ns(block);
}

static bool is_ns_el1_with_tge_1(const uint8_t *block, uint32_t mode)
{
    const bool is_el1 = mode != POMURICA_MODE_USER && mode != POMURICA_MODE_HYP && mode != POMURICA_MODE_MONITOR;

    return is_el1 && has_ns(block) && pomurica_get_word(block, POMURICA_PLACE_HCR) & POMURICA_HCR_TGE;
}

/*
 * Why a return to a mode is illegal, where the step finds it so.  A level can be
 * above that of two kinds of modes that return: Hyp, and those of Non-secure EL1.
 */
static void tell_illegality(FILE *out, const uint8_t *block, uint32_t mode)
{
    if (mode_name(mode) == NULL)
        fprintf(out, "mode 0x%02" PRIX32 " is none", mode);
    else if (is_hyp_with_ns_0(block, mode))
        fputs("Hyp with NS 0", out);
    else if (is_ns_el1_with_tge_1(block, mode))
        fprintf(out, "Non-secure %s with TGE 1", mode_name(mode));
    else
        fprintf(out, "%s is above Exception level %d", mode_name(mode), mode_of(block) == POMURICA_MODE_HYP ? 2 : 1);
}

/* A return that is done, as the step does it; it is illegal where the mode does not become the saved word's. */
static void tell_return(FILE *out, const uint8_t *step)
{
    const uint8_t *const block = block_before(step);
    struct due due;
    uint32_t saved_mode, address;

    find_due(step, &due);
    if (pomurica_get_word(due.answer, POMURICA_ANSWER_NUMBER) != POMURICA_DONE) {
        fputs("returns", out); /* in a Step that nobody judged: the rules refuse it */
        return;
    }
    saved_mode = pomurica_get_word(block, saved_place(mode_of(block))) & POMURICA_CPSR_MODE;
    address = pomurica_get_word(due.block, POMURICA_PLACE_PC);
    if (mode_of(due.block) == saved_mode) {
        fputs("returns to ", out);
        tell_mode(out, due.block);
        fprintf(out, " at 0x%08" PRIX32, address);
    } else {
        fputs("illegal return (", out);
        tell_illegality(out, block, saved_mode);
        fputs("): stays in ", out);
        tell_mode(out, due.block);
        fprintf(out, ", IL becomes 1, goes on at 0x%08" PRIX32, address);
    }
}

/*
 * Why a call is disabled, by the bit of SCR that says so before the Step; NULL
 * where none does, as in a Step that nobody judged.
 */
static const char *why_disabled(const uint8_t *step)
{
    const uint32_t code = pomurica_get_word(step, POMURICA_STEP_CODE);
    const uint32_t scr = pomurica_get_word(block_before(step), POMURICA_PLACE_SCR);

    if (code == POMURICA_EVENT_SMC && (scr & POMURICA_SCR_SCD) != 0)
        return "SMC is disabled: SCR.SCD is 1";
    if (code == POMURICA_EVENT_HVC && (scr & POMURICA_SCR_HCE) == 0)
        return "HVC is disabled: SCR.HCE is 0";
    return NULL;
}

/* Whether a return is refused for its saved word: any of bits 24-21 is set, and the block itself is good. */
static bool is_saved_word_bad(const uint8_t *step)
{
    const uint8_t *const block = block_before(step);
    const uint32_t mode = mode_of(block), place = saved_place(mode);

    if (pomurica_get_word(step, POMURICA_STEP_CODE) != POMURICA_EVENT_RETURN || place == POMURICA_PLACES)
        return false;
    if (pomurica_get_word(block, POMURICA_PLACE_CPSR) & POMURICA_CPSR_BITS_24_21)
        return false;
    if (is_hyp_with_ns_0(block, mode) || is_ns_el1_with_tge_1(block, mode))
        return false;
    return pomurica_get_word(block, place) & POMURICA_CPSR_BITS_24_21;
}

/* Whether the event of a Step is one that the new layout knows, and the Step's own does not. */
static bool is_of_new_in_old(const uint8_t *step)
{
    return layout_of(step)->old &&
           is_of_new_alone(pomurica_get_word(step, POMURICA_STEP_CODE), pomurica_get_word(step, POMURICA_STEP_A));
}

/* Whether it is a check with a virtual line, which the old layout knows, and the Step's own does not. */
static bool is_of_old_in_new(const uint8_t *step)
{
    return !layout_of(step)->old &&
           virtual_lines(pomurica_get_word(step, POMURICA_STEP_CODE), pomurica_get_word(step, POMURICA_STEP_A)) != 0;
}

/* Why an event is refused, where more is to be said than the number; else NULL. */
static const char *why_refused(const uint8_t *step, uint32_t number)
{
    if (number == POMURICA_BAD_EVENT && is_of_new_in_old(step))
        return "not known in the old layout";
    if (number == POMURICA_BAD_EVENT && is_of_old_in_new(step))
        return "a virtual line: in the new layout HCR.VF and VI signal a guest";
    if (number == POMURICA_DISABLED)
        return why_disabled(step);
    if (number == POMURICA_BAD_STATE && is_saved_word_bad(step))
        return "bits 24-21 of the saved word are not 0";
    if (number == POMURICA_OWN_REGISTER)
        return "its own register, reached by another instruction";
    if (number == POMURICA_NO_RIGHT && mode_of(block_before(step)) == POMURICA_MODE_USER)
        return "no banked register is accessible from User";
    if (number == POMURICA_NO_RIGHT)
        return "not accessible from this mode and state";
    return NULL;
}

static void tell_refusal(FILE *out, const uint8_t *step, uint32_t number)
{
    const char *const why = why_refused(step, number);

    fprintf(out, "refused with %" PRIu32 " %s", number, pomurica_number_name(number));
    if (why != NULL)
        fprintf(out, " (%s)", why);
}

void tell_outcome(FILE *out, const uint8_t *step, uint32_t number, uint32_t value)
{
    switch (outcome_of(pomurica_get_word(step, POMURICA_STEP_CODE), number, value)) {
    case OUTCOME_REFUSED: tell_refusal(out, step, number); break;
    case OUTCOME_READ: fprintf(out, "reads 0x%08" PRIX32, value); break;
    case OUTCOME_WRITTEN: fputs("written", out); break;
    case OUTCOME_NOTHING_TAKEN: fputs("takes nothing", out); break;
    case OUTCOME_ENTRY: tell_entry(out, value); break;
    case OUTCOME_RETURN: tell_return(out, step); break;
    }
}
