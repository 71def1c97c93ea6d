/*
 * The words that host/phrases.c and host/status.c have, held against the step:
 * the register that each A of a banked access names is the one that the step
 * reads and writes, an event is said to be bad where the step refuses it, in the
 * old layout where that does not know it too but not where it has a virtual line
 * alone, a call to be disabled where the step says so, and a return to go on where
 * it does.  What host/record.h finds due for the virtual lines of the old layout
 * is held against the checker.
 */
#define _POSIX_C_SOURCE 200809L

#include "group.h"
#include "phrases.h"
#include "pomurica.h"
#include "record.h"
#include "status.h"

#include <stdio.h>
#include <stdlib.h>
#include <string.h>

enum { CELLS = 64, NEW_WORD = 7 };

static const uint32_t MODES[] = {
    POMURICA_MODE_USER, POMURICA_MODE_FIQ, POMURICA_MODE_IRQ, POMURICA_MODE_SUPERVISOR, POMURICA_MODE_MONITOR,
    POMURICA_MODE_ABORT, POMURICA_MODE_HYP, POMURICA_MODE_UNDEFINED, POMURICA_MODE_SYSTEM,
};

#define COUNT_OF(array) (sizeof(array) / sizeof *(array))

/* A block in which every register that has a number in the tables holds a word of its own. */
static void fill_block(uint8_t *block, uint32_t mode, uint32_t scr)
{
    memset(block, 0, POMURICA_BLOCK_SIZE);
    for (uint32_t place = 0; place < POMURICA_PLACE_CPSR; place++)
        pomurica_put_word(block, place, 0xBA000000 + place);
    pomurica_put_word(block, POMURICA_PLACE_CPSR, mode);
    pomurica_put_word(block, POMURICA_PLACE_SCR, scr);
}

/* The place of a register by its name; POMURICA_PLACES for none. */
static uint32_t place_named(const char *name)
{
    uint32_t place = 0;

    while (place < POMURICA_PLACES && (name == NULL || strcmp(name, register_name(place)) != 0))
        place++;
    return place;
}

/* A read and a write from one mode and state; whether the register was reached. */
static bool try_access(uint32_t a, uint32_t mode, uint32_t scr)
{
    uint8_t before[POMURICA_BLOCK_SIZE], block[POMURICA_BLOCK_SIZE], answer[POMURICA_ANSWER_SIZE];
    const uint32_t place = place_named(banked_name(a));
    uint32_t number;

    fill_block(before, mode, scr);
    memcpy(block, before, sizeof block);
    number = pomurica_step(block, sizeof block, POMURICA_EVENT_BANKED_READ, a, 0, answer, sizeof answer);
    if (number == POMURICA_BAD_STATE) /* Hyp with NS 0 */
        return false;
    if (number != POMURICA_DONE) {
        check(place == POMURICA_PLACES ? number == POMURICA_NO_REGISTER
                                       : number == POMURICA_NO_RIGHT || number == POMURICA_OWN_REGISTER,
              "A %u from mode %x: %s", (unsigned)a, (unsigned)mode, pomurica_number_name(number));
        return false;
    }
    if (!check(place < POMURICA_PLACES, "A %u: read, and named as no register", (unsigned)a))
        return true;
    check(pomurica_get_word(answer, 1) == pomurica_get_word(before, place), "A %u from mode %x: reads %x, which is not %s",
          (unsigned)a, (unsigned)mode, (unsigned)pomurica_get_word(answer, 1), banked_name(a));
    pomurica_step(block, sizeof block, POMURICA_EVENT_BANKED_WRITE, a, NEW_WORD, answer, sizeof answer);
    pomurica_put_word(before, place, NEW_WORD);
    check(memcmp(block, before, sizeof block) == 0, "A %u from mode %x: does not write %s", (unsigned)a, (unsigned)mode,
          banked_name(a));
    return true;
}

/* Every A from every mode, Secure and Non-secure: each register that is named is reached from some. */
static void try_cell(uint32_t a)
{
    bool reached = false;

    for (size_t i = 0; i < COUNT_OF(MODES); i++)
        for (uint32_t scr = 0; scr <= POMURICA_SCR_NS; scr++)
            reached |= try_access(a, MODES[i], scr);
    check(reached == (banked_name(a) != NULL), "A %u: named as %s", (unsigned)a,
          banked_name(a) == NULL ? "no register" : banked_name(a));
}

/* A Step behind the block before it, as both lie in a trace of the new layout. */
struct in_trace {
    uint8_t bytes[POMURICA_BLOCK_SIZE + POMURICA_STEP_SIZE];
};

static const uint8_t *step_in(const struct in_trace *step)
{
    return step->bytes + POMURICA_BLOCK_SIZE;
}

/* A Step of an event from a mode and state. */
static struct in_trace step_of(struct pomurica_event event, uint32_t mode, uint32_t scr, uint32_t hcr)
{
    struct in_trace step = { { 0 } };
    uint8_t *const words = step.bytes + POMURICA_BLOCK_SIZE;

    fill_block(step.bytes, mode, scr);
    pomurica_put_word(step.bytes, POMURICA_PLACE_HCR, hcr);
    pomurica_put_word(words, POMURICA_RECORD_HEAD, POMURICA_STEP_HEAD);
    pomurica_put_word(words, POMURICA_STEP_CODE, event.code);
    pomurica_put_word(words, POMURICA_STEP_A, event.a);
    pomurica_put_word(words, POMURICA_STEP_B, event.b);
    return step;
}

/* The same Step in a trace of the old layout: its block, without HDCR, ends where it begins. */
static struct in_trace in_old_trace(struct in_trace step)
{
    const size_t hdcr = POMURICA_BLOCK_SIZE - POMURICA_OLD_BLOCK_SIZE;

    memmove(step.bytes + hdcr, step.bytes, POMURICA_OLD_BLOCK_SIZE);
    pomurica_put_word(step.bytes + POMURICA_BLOCK_SIZE, POMURICA_RECORD_HEAD, POMURICA_OLD_STEP_HEAD);
    return step;
}

/* What is said of the event of a Step; NULL where there is no memory.  The caller frees it. */
static char *said_of(struct in_trace step)
{
    char *said = NULL;
    size_t length = 0;
    FILE *const out = open_memstream(&said, &length);

    if (!check(out != NULL, "no memory"))
        return NULL;
    tell_event(out, step_in(&step));
    fclose(out);
    return said;
}

/* The same of an event from a mode. */
static char *said_from(uint32_t mode, struct pomurica_event event)
{
    return said_of(step_of(event, mode, POMURICA_SCR_NS, 0));
}

static char *said_in_old(uint32_t mode, struct pomurica_event event)
{
    return said_of(in_old_trace(step_of(event, mode, POMURICA_SCR_NS, 0)));
}

static void expect_said_from(uint32_t mode, struct pomurica_event event, const char *due)
{
    char *const said = said_from(mode, event);

    if (said != NULL)
        check(strcmp(said, due) == 0, "said: %s", said);
    free(said);
}

static void expect_said(uint32_t code, uint32_t a, uint32_t b, const char *due)
{
    expect_said_from(POMURICA_MODE_SUPERVISOR, (struct pomurica_event){ code, a, b }, due);
}

static void expect_said_in_old(uint32_t code, uint32_t a, uint32_t b, const char *due)
{
    char *const said = said_in_old(POMURICA_MODE_SUPERVISOR, (struct pomurica_event){ code, a, b });

    if (said != NULL)
        check(strcmp(said, due) == 0, "said of an old Step: %s", said);
    free(said);
}

static void try_sentences(void)
{
    expect_said(POMURICA_EVENT_UNDEFINED, 0, 0, "Undefined Instruction");
    expect_said(POMURICA_EVENT_PREFETCH_ABORT, POMURICA_ABORT_EXTERNAL, 0, "external Prefetch Abort");
    expect_said(POMURICA_EVENT_PREFETCH_ABORT, POMURICA_ABORT_DEBUG, 0, "debug Prefetch Abort");
    expect_said(POMURICA_EVENT_NOTE, POMURICA_PLACE_HDCR, 0x100, "note: HDCR becomes 0x00000100");
    expect_said_in_old(POMURICA_EVENT_PREFETCH_ABORT, 3, 0, "external Prefetch Abort of stage 2");
    expect_said_in_old(POMURICA_EVENT_NOTE, POMURICA_PLACE_MVBAR, 7, "note: MVBAR becomes 0x00000007");
    expect_said(POMURICA_EVENT_DATA_ABORT, POMURICA_ABORT_EXTERNAL | POMURICA_ABORT_STAGE_2, 0,
                "external Data Abort of stage 2");
    expect_said(POMURICA_EVENT_INTERRUPT_CHECK, 0, 0, "interrupt check, no line");
    expect_said(POMURICA_EVENT_INTERRUPT_CHECK, 7, 0, "interrupt check, lines SError and FIQ and IRQ");
    expect_said_in_old(POMURICA_EVENT_INTERRUPT_CHECK, 31, 0,
                       "interrupt check, lines SError and FIQ and IRQ and virtual FIQ and virtual IRQ");
    expect_said_in_old(POMURICA_EVENT_INTERRUPT_CHECK, POMURICA_LINE_VIRTUAL_FIQ, 0, "interrupt check, lines virtual FIQ");
    expect_said(POMURICA_EVENT_BANKED_READ, 18, 0, "banked read of LR_svc");
    expect_said(POMURICA_EVENT_BANKED_READ, 62, 0, "banked read of SPSR_hyp");
    expect_said(POMURICA_EVENT_BANKED_READ, 7, 0, "banked read of no register (R 0 SYSm 0x07)");
    expect_said(POMURICA_EVENT_BANKED_WRITE, 5, 7, "banked write of 0x00000007 to SP_usr");
    expect_said(POMURICA_EVENT_BANKED_WRITE, 63, 7, "banked write of 0x00000007 to no register (R 1 SYSm 0x1F)");
    expect_said(POMURICA_EVENT_NOTE, POMURICA_PLACE_MVBAR, 7, "note: MVBAR becomes 0x00000007");
    expect_said(POMURICA_EVENT_RETURN, 0, 0, "exception return");
    expect_said(POMURICA_EVENT_RETURN, 2, 0, "exception return, LR less 2");
    expect_said(POMURICA_EVENT_RETURN, 8, 0, "exception return, LR less 8");
}

static void try_bad_operands(void)
{
    expect_said(POMURICA_EVENT_UNDEFINED, 0, 9, "Undefined Instruction, B 9, which must be 0");
    expect_said(POMURICA_EVENT_SVC, 1, 9, "SVC, A 1, which must be 0, B 9, which must be 0");
    expect_said(POMURICA_EVENT_SMC, 1, 0, "SMC, A 1, which must be 0");
    expect_said(POMURICA_EVENT_HVC, 1, 0, "HVC, A 1, which must be 0");
    expect_said(POMURICA_EVENT_PREFETCH_ABORT, 5, 0, "Prefetch Abort, A 5, above 4");
    expect_said(POMURICA_EVENT_PREFETCH_ABORT, 7, 0, "Prefetch Abort, A 7, above 4");
    expect_said(POMURICA_EVENT_PREFETCH_ABORT, 4, 9, "debug Prefetch Abort, B 9, which must be 0");
    expect_said_in_old(POMURICA_EVENT_PREFETCH_ABORT, 4, 0, "Prefetch Abort, A 4, above 3");
    expect_said_in_old(POMURICA_EVENT_PREFETCH_ABORT, 7, 0, "Prefetch Abort, A 7, above 3");
    expect_said_in_old(POMURICA_EVENT_NOTE, POMURICA_PLACE_HDCR, 7, "note of 0x00000007, A 44, above 43");
    expect_said(POMURICA_EVENT_DATA_ABORT, 4, 0, "Data Abort, A 4, above 3");
    expect_said(POMURICA_EVENT_DATA_ABORT, 3, 9, "external Data Abort of stage 2, B 9, which must be 0");
    expect_said(POMURICA_EVENT_HYP_TRAP, 1, 0, "Hyp Trap, A 1, which must be 0");
    expect_said(POMURICA_EVENT_MONITOR_TRAP, 0, 1, "Monitor Trap, B 1, which must be 0");
    expect_said(POMURICA_EVENT_INTERRUPT_CHECK, 8, 0, "interrupt check, A 8, above 7");
    expect_said(POMURICA_EVENT_INTERRUPT_CHECK, 20, 0, "interrupt check, A 20, above 7");
    expect_said(POMURICA_EVENT_INTERRUPT_CHECK, 33, 0, "interrupt check, A 33, above 7");
    expect_said_in_old(POMURICA_EVENT_INTERRUPT_CHECK, 33, 0, "interrupt check, A 33, above 31");
    expect_said(POMURICA_EVENT_INTERRUPT_CHECK, 4, 9, "interrupt check, lines IRQ, B 9, which must be 0");
    expect_said(POMURICA_EVENT_BANKED_READ, 64, 0, "banked read, A 64, above 63");
    expect_said(POMURICA_EVENT_BANKED_READ, 18, 9, "banked read of LR_svc, B 9, which must be 0");
    expect_said(POMURICA_EVENT_BANKED_WRITE, 0xFFFFFFFF, 7, "banked write of 0x00000007, A 4294967295, above 63");
    expect_said(POMURICA_EVENT_NOTE, POMURICA_PLACES, 7, "note of 0x00000007, A 45, above 44");
    expect_said(POMURICA_EVENT_RETURN, 3, 0, "exception return, A 3, which must be 0, 2, 4 or 8");
    expect_said(POMURICA_EVENT_RETURN, 16, 9, "exception return, A 16, which must be 0, 2, 4 or 8, B 9, which must be 0");
    expect_said(POMURICA_EVENT_RETURN, 4, 9, "exception return, LR less 4, B 9, which must be 0");
    expect_said_from(POMURICA_MODE_HYP, (struct pomurica_event){ POMURICA_EVENT_RETURN, 4, 0 },
                     "exception return, A 4, which must be 0 from Hyp");
    expect_said(0, 1, 2, "event of code 0, which is none");
    expect_said(POMURICA_EVENT_RETURN + 1, 0, 0, "event of code 14, which is none");
}

/* Whether the words say that an event is bad exactly if it is; frees them. */
static void expect_bad(uint32_t mode, struct pomurica_event event, bool bad, char *said)
{
    if (said == NULL)
        return;
    check(bad == (strstr(said, "must be 0") || strstr(said, "above") || strstr(said, "which is none")),
          "mode %x, code %u, A %u, B %u: %s", (unsigned)mode, (unsigned)event.code, (unsigned)event.a, (unsigned)event.b,
          said);
    free(said);
}

/* Whether the rules of its layout find the event of a Step bad, as find_due asks them. */
static bool is_due_bad(struct in_trace step)
{
    struct due due;

    find_due(step_in(&step), &due);
    return pomurica_get_word(due.answer, POMURICA_ANSWER_NUMBER) == POMURICA_BAD_EVENT;
}

/* The old layout knows no debug abort and no place 44, and it alone knows lines 8 and 16. */
static bool is_bad_in_old(struct pomurica_event event, bool bad)
{
    if (event.code == POMURICA_EVENT_PREFETCH_ABORT && event.a == POMURICA_ABORT_DEBUG)
        return true;
    if (event.code == POMURICA_EVENT_NOTE && event.a == POMURICA_PLACE_HDCR)
        return true;
    if (event.code == POMURICA_EVENT_INTERRUPT_CHECK)
        return event.a > 31 || event.b != 0;
    return bad;
}

/* By the step from a good block of the mode. */
static void try_event(uint32_t mode, struct pomurica_event event)
{
    const struct in_trace step = step_of(event, mode, POMURICA_SCR_NS, 0);
    uint8_t block[POMURICA_BLOCK_SIZE], answer[POMURICA_ANSWER_SIZE];
    bool bad, bad_in_old;

    fill_block(block, mode, POMURICA_SCR_NS);
    bad = pomurica_step(block, sizeof block, event.code, event.a, event.b, answer, sizeof answer) == POMURICA_BAD_EVENT;
    bad_in_old = is_bad_in_old(event, bad);
    expect_bad(mode, event, bad, said_from(mode, event));
    expect_bad(mode, event, bad_in_old, said_in_old(mode, event));
    check(is_due_bad(step) == bad && is_due_bad(in_old_trace(step)) == bad_in_old,
          "mode %x, code %u, A %u: due otherwise", (unsigned)mode, (unsigned)event.code, (unsigned)event.a);
}

static void try_events(uint32_t mode)
{
    static const uint32_t WORDS[] = {
        0, 1, 2, 3, 4, 5, 6, 7, 8, 9, 15, 16, 24, 31, 32, 33, 40, 43, 44, 45, 63, 64, 256, 0x80000000, 0xFFFFFFFF
    };

    for (uint32_t code = 0; code <= POMURICA_EVENT_RETURN + 2; code++)
        for (size_t i = 0; i < COUNT_OF(WORDS); i++)
            for (size_t j = 0; j < COUNT_OF(WORDS); j++)
                try_event(mode, (struct pomurica_event){ code, WORDS[i], WORDS[j] });
    try_event(mode, (struct pomurica_event){ 0x80000001, 0, 0 });
}

static void expect_fields(uint32_t found, uint32_t due, const char *expected)
{
    char *said = NULL;
    size_t length = 0;
    FILE *const out = open_memstream(&said, &length);

    if (!check(out != NULL, "no memory"))
        return;
    tell_fields(out, found, "due", due);
    fclose(out);
    check(strcmp(said, expected) == 0, "said: %s", said);
    free(said);
}

static void try_fields(void)
{
    expect_fields(0x13, 0x13, "");
    expect_fields(0x00000112, 0x00000192, "I clear, due set");
    expect_fields(0x33, 0x13, "T set, due clear");
    expect_fields(0x12, 0x16, "mode IRQ, due Monitor");
    expect_fields(0, 0x13, "mode 0x00, due Supervisor");
    expect_fields(0x00000410, 0x10, "IT 0x04, due 0x00");
    expect_fields(0x06000010, 0x0400FC10, "IT 0x03, due 0xFE");
    expect_fields(0x01200010, 0x00030010, "bits 24-21 0x09, due 0x00; GE 0x00, due 0x03");
    expect_fields(0xF81003D0, 0x00000010,
                  "N set, due clear; Z set, due clear; C set, due clear; V set, due clear; Q set, due clear; "
                  "IL set, due clear; E set, due clear; A set, due clear; I set, due clear; F set, due clear");
}

/* The status words among the parts of a Step are those that their names call so. */
static void try_status_words(void)
{
    check(!is_status(POMURICA_PART_NUMBER) && !is_status(POMURICA_PART_VALUE), "the answer");
    for (uint32_t place = 0; place < POMURICA_PLACES; place++)
        check(is_status(POMURICA_PART_BLOCK + place) == (strstr(register_name(place), "PSR") != NULL), "%s",
              register_name(place));
}

static struct in_trace step_after(uint32_t code, uint32_t mode, uint32_t scr, uint32_t hcr)
{
    return step_of((struct pomurica_event){ code, 0, 0 }, mode, scr, hcr);
}

static void expect_outcome(const struct in_trace *step, uint32_t number, uint32_t value, const char *due)
{
    char *said = NULL;
    size_t length = 0;
    FILE *const out = open_memstream(&said, &length);

    if (!check(out != NULL, "no memory"))
        return;
    tell_outcome(out, step_in(step), number, value);
    fclose(out);
    check(strcmp(said, due) == 0, "said: %s; due: %s", said, due);
    free(said);
}

static void try_outcomes(void)
{
    const struct in_trace interrupt = step_after(POMURICA_EVENT_INTERRUPT_CHECK, POMURICA_MODE_SUPERVISOR, 0, 0);
    const struct in_trace read = step_after(POMURICA_EVENT_BANKED_READ, POMURICA_MODE_SUPERVISOR, 0, 0);
    const struct in_trace user_read = step_after(POMURICA_EVENT_BANKED_READ, POMURICA_MODE_USER, 0, 0);
    const struct in_trace note = step_after(POMURICA_EVENT_NOTE, POMURICA_MODE_SUPERVISOR, 0, 0);

    expect_outcome(&interrupt, POMURICA_DONE, 0x31218, "IRQ: enters IRQ mode at 0x18");
    expect_outcome(&interrupt, POMURICA_DONE, 0, "takes nothing");
    expect_outcome(&read, POMURICA_DONE, 7, "reads 0x00000007");
    expect_outcome(&read, POMURICA_NO_RIGHT, 0, "refused with 7 NO_RIGHT (not accessible from this mode and state)");
    expect_outcome(&user_read, POMURICA_NO_RIGHT, 0, "refused with 7 NO_RIGHT (no banked register is accessible from User)");
    expect_outcome(&read, POMURICA_OWN_REGISTER, 0,
                   "refused with 17 OWN_REGISTER (its own register, reached by another instruction)");
    expect_outcome(&note, POMURICA_DONE, 0, "written");
}

/* What only the new layout knows, in both. */
static void try_new_in_old(void)
{
    const struct pomurica_event events[] = {
        { POMURICA_EVENT_PREFETCH_ABORT, POMURICA_ABORT_DEBUG, 0 }, { POMURICA_EVENT_NOTE, POMURICA_PLACE_HDCR, 7 },
    };

    for (size_t i = 0; i < COUNT_OF(events); i++) {
        const struct in_trace step = step_of(events[i], POMURICA_MODE_SUPERVISOR, POMURICA_SCR_NS, 0);
        const struct in_trace in_old = in_old_trace(step);

        expect_outcome(&in_old, POMURICA_BAD_EVENT, 0, "refused with 4 BAD_EVENT (not known in the old layout)");
        expect_outcome(&step, POMURICA_BAD_EVENT, 0, "refused with 4 BAD_EVENT");
    }
}

/* What only the old layout knows, in both; a line beside a bit that is none's in either is no reason. */
static void try_old_in_new(void)
{
    static const uint32_t LINES[] = { 8, 16, 24, 31 };
    const struct pomurica_event beyond = { POMURICA_EVENT_INTERRUPT_CHECK, 32 + 8, 0 };
    const struct in_trace none = step_of(beyond, POMURICA_MODE_SUPERVISOR, POMURICA_SCR_NS, 0);

    for (size_t i = 0; i < COUNT_OF(LINES); i++) {
        const struct pomurica_event event = { POMURICA_EVENT_INTERRUPT_CHECK, LINES[i], 0 };
        const struct in_trace step = step_of(event, POMURICA_MODE_SUPERVISOR, POMURICA_SCR_NS, 0);
        const struct in_trace in_old = in_old_trace(step);

        expect_outcome(&step, POMURICA_BAD_EVENT, 0,
                       "refused with 4 BAD_EVENT (a virtual line: in the new layout HCR.VF and VI signal a guest)");
        expect_outcome(&in_old, POMURICA_BAD_EVENT, 0, "refused with 4 BAD_EVENT");
        expect_outcome(&in_old, POMURICA_DONE, 0x61218, "virtual IRQ: enters IRQ mode at 0x18");
    }
    expect_outcome(&none, POMURICA_BAD_EVENT, 0, "refused with 4 BAD_EVENT");
}

/* What the virtual lines of the old layout go by, in every combination: NS, TGE, the masks, and from FMO to VA of HCR. */
enum { CHECK_NS = 1, CHECK_TGE = 2, CHECK_MASKED = 4, CHECK_HCR = 8, CHECK_COMBINATIONS = CHECK_HCR << 6 };

static struct in_trace old_check_of(uint32_t mode, uint32_t lines, unsigned set)
{
    const uint32_t hcr = set / CHECK_HCR * POMURICA_HCR_FMO | (set & CHECK_TGE ? POMURICA_HCR_TGE : 0);
    const uint32_t masks = set & CHECK_MASKED ? POMURICA_CPSR_A | POMURICA_CPSR_I | POMURICA_CPSR_F : 0;
    struct in_trace step = step_of((struct pomurica_event){ POMURICA_EVENT_INTERRUPT_CHECK, lines, 0 }, mode,
                                   set & CHECK_NS ? POMURICA_SCR_NS : 0, hcr);

    pomurica_put_word(step.bytes, POMURICA_PLACE_CPSR, mode | masks);
    return in_old_trace(step);
}

/* Whether the checker accepts, in an old trace of it alone, a Step that shows what is found due. */
static bool is_accepted_as_due(const struct in_trace *step, const struct due *due)
{
    uint8_t trace[POMURICA_OLD_START_SIZE + POMURICA_OLD_STEP_SIZE + POMURICA_END_SIZE];
    uint8_t *const in_it = trace + POMURICA_OLD_START_SIZE, *const end = in_it + POMURICA_OLD_STEP_SIZE;
    uint8_t report[POMURICA_REPORT_SIZE];

    pomurica_put_word(trace, POMURICA_RECORD_HEAD, POMURICA_OLD_START_HEAD);
    pomurica_put_word(trace, POMURICA_RECORD_COUNT, 1);
    memcpy(trace + 4 * POMURICA_START_BLOCK, block_before(step_in(step)), POMURICA_OLD_BLOCK_SIZE);
    memcpy(in_it, step_in(step), 4 * POMURICA_STEP_NUMBER);
    memcpy(in_it + 4 * POMURICA_STEP_NUMBER, due->answer, sizeof due->answer);
    memcpy(in_it + 4 * POMURICA_STEP_BLOCK, due->block, POMURICA_OLD_BLOCK_SIZE);
    pomurica_put_word(end, POMURICA_RECORD_HEAD, POMURICA_END_HEAD);
    pomurica_put_word(end, POMURICA_RECORD_COUNT, 1);
    return pomurica_check(trace, sizeof trace, report, sizeof report) == POMURICA_DONE;
}

/* One check; counts it by the virtual interrupt that it took, if that came by its line and not by HCR. */
static void try_old_check(uint32_t mode, uint32_t lines, unsigned set, unsigned *by_line)
{
    const struct in_trace step = old_check_of(mode, lines, set);
    const uint32_t hcr = pomurica_get_word(block_before(step_in(&step)), POMURICA_PLACE_HCR);
    struct due due;
    uint32_t which;

    find_due(step_in(&step), &due);
    check(is_accepted_as_due(&step, &due), "mode %x, lines %u, %x: not what the checker has", (unsigned)mode,
          (unsigned)lines, set);
    which = pomurica_get_word(due.answer, POMURICA_ANSWER_VALUE) >> 16;
    by_line[which] += which == POMURICA_WHICH_VIRTUAL_FIQ && (hcr & POMURICA_HCR_VF) == 0;
    by_line[which] += which == POMURICA_WHICH_VIRTUAL_IRQ && (hcr & POMURICA_HCR_VI) == 0;
}

/* Every check of the old layout, from every mode, with every combination of the bits. */
static void try_old_checks(void)
{
    unsigned by_line[POMURICA_WHICH_VIRTUAL_IRQ + 1] = { 0 };

    for (size_t i = 0; i < COUNT_OF(MODES); i++)
        for (uint32_t lines = 0; lines <= POMURICA_OLD_ALL_LINES; lines++)
            for (unsigned set = 0; set < CHECK_COMBINATIONS; set++)
                try_old_check(MODES[i], lines, set, by_line);
    /*
     * With NS 1, TGE 0 and nothing masked, from User and the six others that are no Hyp and no Monitor; without a line of a
     * physical one, and without AMO and VA together, so in 3 of 4.  FIQ: FMO 1 and VF 0, with lines 8 and 24, IMO and VI
     * any.  IRQ: IMO 1 and VI 0, with line 16 without FMO and VF together, with 24 without FMO.
     */
    check(by_line[POMURICA_WHICH_VIRTUAL_FIQ] == 7 * 3 * 2 * 4, "%u virtual FIQs by line", by_line[POMURICA_WHICH_VIRTUAL_FIQ]);
    check(by_line[POMURICA_WHICH_VIRTUAL_IRQ] == 7 * 3 * (3 + 2), "%u virtual IRQs by line", by_line[POMURICA_WHICH_VIRTUAL_IRQ]);
}

/* The bits that the words of a disabled call go by, in every combination, and that of the trap which goes before SCD. */
enum { NS_SET = 1, SCD_SET = 2, HCE_SET = 4, TSC_SET = 8, COMBINATIONS = 16 };

/* One call from one mode: what the step answers is told, and as disabled exactly where it is, by the bit that does it. */
static bool try_call(uint32_t code, uint32_t mode, unsigned set)
{
    const uint32_t scr = (set & NS_SET ? POMURICA_SCR_NS : 0) | (set & SCD_SET ? POMURICA_SCR_SCD : 0) |
                         (set & HCE_SET ? POMURICA_SCR_HCE : 0);
    const struct in_trace step = step_after(code, mode, scr, set & TSC_SET ? POMURICA_HCR_TSC : 0);
    uint8_t block[POMURICA_BLOCK_SIZE], answer[POMURICA_ANSWER_SIZE];
    char due[80];
    uint32_t number;

    memcpy(block, step.bytes, sizeof block);
    number = pomurica_step(block, sizeof block, code, 0, 0, answer, sizeof answer);
    if (number == POMURICA_DONE)
        return false;
    snprintf(due, sizeof due, "refused with %u %s", (unsigned)number, pomurica_number_name(number));
    if (number == POMURICA_DISABLED) {
        check((code == POMURICA_EVENT_HVC) ? !(set & HCE_SET) : (set & SCD_SET) != 0, "disabled in mode %x by no bit",
              (unsigned)mode);
        strcat(due, code == POMURICA_EVENT_HVC ? " (HVC is disabled: SCR.HCE is 0)" : " (SMC is disabled: SCR.SCD is 1)");
    }
    expect_outcome(&step, number, 0, due);
    return number == POMURICA_DISABLED;
}

/* Both calls from every mode, with every combination of the bits. */
static void try_calls(void)
{
    unsigned disabled[POMURICA_EVENT_HVC + 1] = { 0 };

    for (uint32_t code = POMURICA_EVENT_SMC; code <= POMURICA_EVENT_HVC; code++)
        for (size_t i = 0; i < COUNT_OF(MODES); i++)
            for (unsigned set = 0; set < COMBINATIONS; set++)
                disabled[code] += try_call(code, MODES[i], set);
    /*
     * With SCD 1, and HCE and TSC any: Secure FIQ, IRQ, Supervisor, Abort, Undefined and System, Monitor whatever NS says, and
     * Non-secure Hyp; the six Non-secure with TSC 0 only.  With HCE 0, and SCD and TSC any: the six Non-secure, and Hyp.
     */
    check(disabled[POMURICA_EVENT_SMC] == (6 + 2 + 1) * 4 + 6 * 2, "SMC is disabled %u times",
          disabled[POMURICA_EVENT_SMC]);
    check(disabled[POMURICA_EVENT_HVC] == (6 + 1) * 4, "HVC is disabled %u times", disabled[POMURICA_EVENT_HVC]);
}

/* The modes that return, each with the places of its saved word and of its address. */
static const struct returning {
    uint32_t mode, saved, link;
} RETURNING[] = {
    { POMURICA_MODE_FIQ, POMURICA_PLACE_SPSR_FIQ, POMURICA_PLACE_LR_FIQ },
    { POMURICA_MODE_IRQ, POMURICA_PLACE_SPSR_IRQ, POMURICA_PLACE_LR_IRQ },
    { POMURICA_MODE_SUPERVISOR, POMURICA_PLACE_SPSR_SVC, POMURICA_PLACE_LR_SVC },
    { POMURICA_MODE_ABORT, POMURICA_PLACE_SPSR_ABT, POMURICA_PLACE_LR_ABT },
    { POMURICA_MODE_UNDEFINED, POMURICA_PLACE_SPSR_UND, POMURICA_PLACE_LR_UND },
    { POMURICA_MODE_MONITOR, POMURICA_PLACE_SPSR_MON, POMURICA_PLACE_LR_MON },
    { POMURICA_MODE_HYP, POMURICA_PLACE_SPSR_HYP, POMURICA_PLACE_ELR_HYP },
};

/* The reasons for which a return is illegal, in the order of the manual's list. */
enum reason { LEGAL, NO_MODE, HIGHER_LEVEL, HYP_WITH_NS_0, EL1_WITH_TGE_1, REASONS };

static int level_of(uint32_t mode, bool ns)
{
    switch (mode) {
    case POMURICA_MODE_USER: return 0;
    case POMURICA_MODE_HYP: return 2;
    case POMURICA_MODE_MONITOR: return 3;
    default: return ns ? 1 : 3;
    }
}

static enum reason reason_of(uint32_t from, uint32_t to, bool ns, bool tge)
{
    if (mode_name(to) == NULL)
        return NO_MODE;
    if (level_of(to, ns) > level_of(from, ns))
        return HIGHER_LEVEL;
    if (to == POMURICA_MODE_HYP && !ns)
        return HYP_WITH_NS_0;
    return level_of(to, ns) == 1 && tge ? EL1_WITH_TGE_1 : LEGAL;
}

/* What has to be said: a mode with its state, and why a return to a mode is illegal. */
enum { SAID_SIZE = 200 };

static void name_state(char *said, uint32_t mode, bool ns)
{
    if (mode == POMURICA_MODE_MONITOR)
        snprintf(said, SAID_SIZE, "Monitor with NS %d", ns);
    else
        snprintf(said, SAID_SIZE, "%s %s", ns ? "Non-secure" : "Secure", mode_name(mode));
}

static void name_reason(char *said, enum reason reason, uint32_t from, uint32_t to, bool ns)
{
    switch (reason) {
    case NO_MODE: snprintf(said, SAID_SIZE, "mode 0x%02X is none", (unsigned)to); break;
    case HIGHER_LEVEL:
        snprintf(said, SAID_SIZE, "%s is above Exception level %d", mode_name(to), level_of(from, ns));
        break;
    case HYP_WITH_NS_0: snprintf(said, SAID_SIZE, "Hyp with NS 0"); break;
    case EL1_WITH_TGE_1: snprintf(said, SAID_SIZE, "Non-secure %s with TGE 1", mode_name(to)); break;
    default: break;
    }
}

/* The bits that a return goes by, in every combination, and those that refuse it. */
enum { RETURN_NS = 1, RETURN_TGE = 2, RETURN_T = 4, BAD_SAVED_WORD = 8, BAD_CPSR = 16, RETURN_COMBINATIONS = 32 };

/* A return that takes 0 off from Hyp, and 2 elsewhere, with a saved word of this mode. */
static struct in_trace return_of(const struct returning *from, uint32_t to, unsigned set)
{
    const uint32_t a = from->mode == POMURICA_MODE_HYP ? 0 : 2;
    struct in_trace step = step_of((struct pomurica_event){ POMURICA_EVENT_RETURN, a, 0 }, from->mode,
                                   set & RETURN_NS ? POMURICA_SCR_NS : 0, set & RETURN_TGE ? POMURICA_HCR_TGE : 0);

    pomurica_put_word(step.bytes, from->saved, to | (set & RETURN_T ? POMURICA_CPSR_T : 0) |
                                                   (set & BAD_SAVED_WORD ? UINT32_C(1) << 24 : 0));
    if (set & BAD_CPSR)
        pomurica_put_word(step.bytes, POMURICA_PLACE_CPSR, from->mode | UINT32_C(1) << 21);
    return step;
}

/* What has to be said of a return that is done, by the reading of the rules that stands here. */
static void name_return(char *said, const struct in_trace *step, const struct returning *from, uint32_t to, unsigned set)
{
    const bool ns = set & RETURN_NS;
    const enum reason reason = reason_of(from->mode, to, ns, set & RETURN_TGE);
    const uint32_t taken_off = pomurica_get_word(step_in(step), POMURICA_STEP_A);
    const uint32_t address = (pomurica_get_word(step->bytes, from->link) - taken_off) & ~(set & RETURN_T ? 1u : 3u);
    char state[SAID_SIZE], why[SAID_SIZE];

    name_state(state, reason == LEGAL ? to : from->mode, ns);
    name_reason(why, reason, from->mode, to, ns);
    if (reason == LEGAL)
        snprintf(said, 3 * SAID_SIZE, "returns to %s at 0x%08X", state, (unsigned)address);
    else
        snprintf(said, 3 * SAID_SIZE, "illegal return (%s): stays in %s, IL becomes 1, goes on at 0x%08X", why, state,
                 (unsigned)address);
}

/* Whether a block is good, as the step finds it: to one that is not it answers 2 or 3 whatever the event. */
static bool is_good(const uint8_t *bytes)
{
    uint8_t block[POMURICA_BLOCK_SIZE], answer[POMURICA_ANSWER_SIZE];

    memcpy(block, bytes, sizeof block);
    return pomurica_step(block, sizeof block, 0, 0, 0, answer, sizeof answer) == POMURICA_BAD_EVENT;
}

/* One return: what the step makes of it is told.  Counts it by the reason for which it is illegal, if it is done. */
static void try_return(const struct returning *from, uint32_t to, unsigned set, unsigned *counts)
{
    const struct in_trace step = return_of(from, to, set);
    const bool ns = set & RETURN_NS, tge = set & RETURN_TGE;
    struct due due;
    char said[3 * SAID_SIZE];
    uint32_t number;

    find_due(step_in(&step), &due);
    number = pomurica_get_word(due.answer, POMURICA_ANSWER_NUMBER);
    if (number == POMURICA_DONE) {
        name_return(said, &step, from, to, set);
        counts[reason_of(from->mode, to, ns, tge)]++;
    } else {
        snprintf(said, sizeof said, "refused with 3 BAD_STATE%s",
                 is_good(step.bytes) ? " (bits 24-21 of the saved word are not 0)" : "");
    }
    expect_outcome(&step, number, 0, said);
}

/* Returns from every mode that has a saved word, to every number of a mode, with every combination of the bits. */
static void try_returns(void)
{
    unsigned counts[REASONS] = { 0 };

    for (size_t i = 0; i < COUNT_OF(RETURNING); i++)
        for (uint32_t to = 0; to <= POMURICA_CPSR_MODE; to++)
            for (unsigned set = 0; set < RETURN_COMBINATIONS; set++)
                try_return(RETURNING + i, to, set, counts);
    /*
     * Each twice, with T 0 and 1.  Good are FIQ, IRQ, Supervisor, Abort and Undefined in three states of NS and TGE, Monitor
     * in four and Hyp in two: from each to 23 numbers of no mode.  Above the five with NS 1 are Hyp and Monitor, above Hyp
     * Monitor; NS is 0 in two states of the five and of Monitor; with TGE 1 Hyp and Monitor with NS 1 return to six modes.
     */
    check(counts[NO_MODE] == 2 * 23 * (5 * 3 + 4 + 2), "%u returns to no mode", counts[NO_MODE]);
    check(counts[HIGHER_LEVEL] == 2 * (5 * 2 + 2), "%u returns to a higher level", counts[HIGHER_LEVEL]);
    check(counts[HYP_WITH_NS_0] == 2 * (5 * 2 + 2), "%u returns to Hyp with NS 0", counts[HYP_WITH_NS_0]);
    check(counts[EL1_WITH_TGE_1] == 2 * (6 + 6), "%u returns to Non-secure EL1 with TGE 1", counts[EL1_WITH_TGE_1]);
    check(counts[LEGAL] == 2 * 9 * (5 * 3 + 4 + 2) - 2 * 3 * 12, "%u legal returns", counts[LEGAL]);
}

/* A Step that nobody judged may show 16 where no bit disables a call: then there is no reason to tell. */
static void try_unjudged(void)
{
    static const char NO_REASON[] = "refused with 16 DISABLED";
    const struct in_trace hvc = step_after(POMURICA_EVENT_HVC, POMURICA_MODE_SUPERVISOR, POMURICA_SCR_NS | POMURICA_SCR_HCE, 0);
    const struct in_trace smc = step_after(POMURICA_EVENT_SMC, POMURICA_MODE_SUPERVISOR, POMURICA_SCR_NS, 0);
    const struct in_trace svc = step_after(POMURICA_EVENT_SVC, POMURICA_MODE_SUPERVISOR, POMURICA_SCR_NS | POMURICA_SCR_SCD, 0);

    expect_outcome(&hvc, POMURICA_DISABLED, 0, NO_REASON);
    expect_outcome(&smc, POMURICA_DISABLED, 0, NO_REASON);
    expect_outcome(&svc, POMURICA_DISABLED, 0, NO_REASON);
}

/* It may show a return done that the rules refuse, and one refused, or another event, for a saved word without fault. */
static void try_unjudged_returns(void)
{
    const struct returning *const hyp = RETURNING + COUNT_OF(RETURNING) - 1;
    const struct in_trace from_user = step_after(POMURICA_EVENT_RETURN, POMURICA_MODE_USER, POMURICA_SCR_NS, 0);
    const struct in_trace from_no_mode = step_after(POMURICA_EVENT_RETURN, 0, POMURICA_SCR_NS, 0);
    const struct in_trace right = return_of(hyp, POMURICA_MODE_USER, RETURN_NS);
    const struct in_trace bad_saved_word = return_of(hyp, POMURICA_MODE_USER, RETURN_NS | BAD_SAVED_WORD);
    struct in_trace bad_a = right, svc = bad_saved_word;

    pomurica_put_word(bad_a.bytes + POMURICA_BLOCK_SIZE, POMURICA_STEP_A, 4);
    pomurica_put_word(svc.bytes + POMURICA_BLOCK_SIZE, POMURICA_STEP_CODE, POMURICA_EVENT_SVC);
    expect_outcome(&from_user, POMURICA_DONE, 0, "returns");
    expect_outcome(&from_no_mode, POMURICA_DONE, 0, "returns");
    expect_outcome(&bad_saved_word, POMURICA_DONE, 0, "returns");
    expect_outcome(&bad_a, POMURICA_DONE, 0, "returns");
    expect_outcome(&from_user, POMURICA_BAD_STATE, 0, "refused with 3 BAD_STATE");
    expect_outcome(&right, POMURICA_BAD_STATE, 0, "refused with 3 BAD_STATE");
    expect_outcome(&svc, POMURICA_BAD_STATE, 0, "refused with 3 BAD_STATE");
    expect_outcome(&bad_saved_word, POMURICA_NOT_HERE, 0, "refused with 5 NOT_HERE");
}

int main(void)
{
    group("each A, 0 to 63, names the register that the step reads and writes");
    for (uint32_t a = 0; a < CELLS; a++)
        try_cell(a);
    group("what is said of an event");
    try_sentences();
    group("what is said of an event with an operand out of its range, or of no event");
    try_bad_operands();
    group("an event is said to be bad exactly where the step answers BAD_EVENT");
    for (size_t i = 0; i < COUNT_OF(MODES); i++)
        try_events(MODES[i]);
    group("what is said to come of an event");
    try_outcomes();
    try_new_in_old();
    try_old_in_new();
    group("what is found due for a check of the old layout, with virtual lines too, is what the checker accepts");
    try_old_checks();
    group("a call is said to be disabled, and why, exactly where the step answers DISABLED");
    try_calls();
    try_unjudged();
    group("a return is said to go on where the step leads it, and to be illegal, and why, exactly where it is");
    try_returns();
    try_unjudged_returns();
    group("the fields in which a status word differs");
    try_fields();
    try_status_words();
    return summary();
}
