/*
 * The checker of the archive, called from C, on traces of both layouts: document
 * 01's worked case l, a trace cut before each of its bytes, bytes behind it, each
 * byte changed, every length and kind in each head, traces that mix the layouts
 * (No. 11), what the old one does not know, virtual lines, which it alone knows
 * (No. 13), traces of older recorders, with calls that are disabled now (No. 8) and
 * returns before there were any (No. 9), and every length of the report from 0 to
 * 210.
 */
#include "case_l.h"
#include "edge.h"
#include "group.h"
#include "lent.h"
#include "pomurica.h"
#include "traces.h"

#include <stdio.h>
#include <string.h>

/* A trace of four Steps: an entry, a refusal, a note and the return. */
enum {
    STEPS = 4,
    MOST_LENGTH = POMURICA_START_SIZE + STEPS * POMURICA_STEP_SIZE + POMURICA_END_SIZE
};

/* The layout of the traces, by which everything here goes. */
static bool old;

/* The length of a trace of so many Steps. */
static uint32_t length_of(uint32_t steps)
{
    return record_place(old, steps + 1) + POMURICA_END_SIZE;
}

static uint32_t end_place(void)
{
    return record_place(old, STEPS + 1);
}

/* Where the words of a record lie, counted in words from its head. */
enum {
    HEAD = 0,
    COUNT = 1,
    START_BLOCK = 2,
    CODE = 1, A = 2, B = 3,
    ANSWER = 4,
    STEP_BLOCK = 6
};

static const uint32_t EVENTS[STEPS][3] = {
    { POMURICA_EVENT_SVC, 0, 0 },
    { POMURICA_EVENT_HVC, 0, 0 },
    { POMURICA_EVENT_NOTE, POMURICA_PLACE_SP_SVC, 0x12345678 },
    { POMURICA_EVENT_RETURN, 0, 0 },
};

/* Kinds of a Start, of this layout or of the other, and of a Step. */
static uint32_t start_kind(bool in_old)
{
    return in_old ? POMURICA_OLD_KIND_START : POMURICA_KIND_START;
}

static uint32_t step_kind(void)
{
    return old ? POMURICA_OLD_KIND_STEP : POMURICA_KIND_STEP;
}

static void put_head(uint8_t *record, uint32_t length, uint32_t kind)
{
    pomurica_put_word(record, HEAD, length | kind << 16);
}

/*
 * Writes the trace as a recorder does: each event, its answer, and the block after it, which moves on.  In the old
 * layout HDCR of the block is 0, and the events are those that it knows.
 */
static void record(uint8_t *trace, uint8_t *block, const uint32_t (*events)[3], uint32_t n)
{
    uint8_t *step = trace + start_size(old);

    put_head(trace, start_size(old), start_kind(old));
    pomurica_put_word(trace, COUNT, n);
    memcpy(trace + 4 * START_BLOCK, block, block_size(old));
    for (size_t i = 0; i < n; i++, step += step_size(old)) {
        put_head(step, step_size(old), step_kind());
        pomurica_put_word(step, CODE, events[i][0]);
        pomurica_put_word(step, A, events[i][1]);
        pomurica_put_word(step, B, events[i][2]);
        pomurica_step(block, POMURICA_BLOCK_SIZE, events[i][0], events[i][1], events[i][2],
                      step + 4 * ANSWER, POMURICA_ANSWER_SIZE);
        memcpy(step + 4 * STEP_BLOCK, block, block_size(old));
    }
    put_head(step, POMURICA_END_SIZE, 3);
    pomurica_put_word(step, COUNT, n);
}

/* The first byte of the record in which a byte lies, and the Steps before it. */
static uint32_t steps_before(size_t byte)
{
    if (byte < start_size(old))
        return 0;
    return (uint32_t)((byte - start_size(old)) / step_size(old));
}

static uint32_t record_of(size_t byte)
{
    if (byte < start_size(old))
        return 0;
    return start_size(old) + steps_before(byte) * step_size(old);
}

/* The bytes that a report holds before a call. */
static const uint8_t OLD_REPORT[LENT_MOST] = { 1, 2, 3, 4, 5, 6, 7, 8, 9, 10, 11, 12 };

/* The report on the bytes is these three words, and nothing else changed. */
static void expect(const uint8_t *bytes, size_t length,
                   uint32_t number, uint32_t place, uint32_t steps)
{
    const uint8_t *trace = lend_at_edge(bytes, length);
    struct lent lent;
    uint8_t *report = lend(&lent, OLD_REPORT, POMURICA_REPORT_SIZE, length % 16);
    const uint32_t returned = pomurica_check(trace, length, report, POMURICA_REPORT_SIZE);

    check(take_back(&lent), "a guard byte changed");
    check(memcmp(trace, bytes, length) == 0, "the trace changed");
    check(returned == number && pomurica_get_word(report, 0) == number &&
              pomurica_get_word(report, 1) == place && pomurica_get_word(report, 2) == steps,
          "%zu bytes: returned %u, report %u %u %u, not %u %u %u", length, returned,
          pomurica_get_word(report, 0), pomurica_get_word(report, 1),
          pomurica_get_word(report, 2), number, place, steps);
}

static void run_case_l(void)
{
    expect(OLD_SHORTEST, OLD_SHORTEST_SIZE, POMURICA_DONE, OLD_SHORTEST_SIZE, 0);
    expect(OLD_SHORTEST, OLD_SHORTEST_SIZE - 1, POMURICA_SHORT, OLD_SHORTEST_END, 0);
    expect(OLD_SHORTEST, 0, POMURICA_SHORT, 0, 0);
    expect(SHORTEST, SHORTEST_SIZE, POMURICA_DONE, SHORTEST_SIZE, 0);
    expect(SHORTEST, SHORTEST_SIZE - 1, POMURICA_SHORT, SHORTEST_END, 0);
}

static void run_null(void)
{
    uint8_t report[POMURICA_REPORT_SIZE];

    check(pomurica_check(NULL, 0, report, sizeof report) == POMURICA_SHORT, "no trace");
    check(pomurica_check(NULL, 0, NULL, 0) == POMURICA_BAD_SIZE, "no trace and no report");
}

static void run_cut(const uint8_t *trace)
{
    for (size_t length = 0; length < length_of(STEPS); length++)
        expect(trace, length, POMURICA_SHORT, record_of(length), steps_before(length));
}

static void run_trailing(const uint8_t *trace)
{
    const uint32_t whole = length_of(STEPS);
    uint8_t longer[MOST_LENGTH + POMURICA_STEP_SIZE] = { 0 };

    memcpy(longer, trace, whole);
    for (size_t length = whole + 1; length <= whole + POMURICA_STEP_SIZE; length++)
        expect(longer, length, POMURICA_TRAILING, whole, STEPS);
    memcpy(longer + whole, trace + end_place(), POMURICA_END_SIZE);
    expect(longer, whole + POMURICA_END_SIZE, POMURICA_TRAILING, whole, STEPS);
}

/* Each byte of what the Steps say came of their events. */
static void run_changed(const uint8_t *trace)
{
    uint8_t changed[MOST_LENGTH];

    memcpy(changed, trace, length_of(STEPS));
    for (size_t byte = start_size(old); byte < end_place(); byte++) {
        if (byte - record_of(byte) < 4 * ANSWER)
            continue;
        changed[byte] ^= 1;
        expect(changed, length_of(STEPS), POMURICA_WRONG_STEP, record_of(byte), steps_before(byte));
        changed[byte] ^= 1;
    }
}

static void run_counts(const uint8_t *trace)
{
    const size_t whole = length_of(STEPS);
    uint8_t changed[MOST_LENGTH];

    memcpy(changed, trace, whole);
    pomurica_put_word(changed, COUNT, POMURICA_MOST_STEPS + 1);
    expect(changed, whole, POMURICA_BAD_COUNT, 0, 0);
    pomurica_put_word(changed, COUNT, STEPS + 1);
    expect(changed, whole, POMURICA_BAD_RECORD, end_place(), STEPS);
    pomurica_put_word(changed, COUNT, STEPS - 1);
    expect(changed, whole, POMURICA_BAD_RECORD, record_place(old, STEPS), STEPS - 1);
    pomurica_put_word(changed, COUNT, STEPS);
    pomurica_put_word(changed + end_place(), COUNT, STEPS + 1);
    expect(changed, whole, POMURICA_BAD_COUNT, end_place(), STEPS);
}

/* The report on the trace with this head of a record.  A Start of the other layout has no record behind it. */
static void try_head(const uint8_t *trace, uint32_t record, uint32_t length, uint32_t kind)
{
    const uint32_t place = record_place(old, record), other = start_size(!old), steps = record == 0 ? 0 : record - 1;
    uint8_t changed[MOST_LENGTH];

    memcpy(changed, trace, length_of(STEPS));
    put_head(changed + place, length, kind);
    if (memcmp(changed + place, trace + place, 4) == 0)
        expect(changed, length_of(STEPS), POMURICA_DONE, length_of(STEPS), STEPS);
    else if (record == 0 && length == other && kind == start_kind(!old))
        expect(changed, length_of(STEPS), POMURICA_BAD_RECORD, other, 0);
    else
        expect(changed, length_of(STEPS), POMURICA_BAD_RECORD, place, steps);
}

/* Every length and kind that a record of either layout has, and some that none has, in each head. */
static void run_heads(const uint8_t *trace)
{
    static const uint32_t LENGTHS[] = {
        0, 4, POMURICA_END_SIZE, POMURICA_OLD_BLOCK_SIZE, POMURICA_BLOCK_SIZE, POMURICA_OLD_START_SIZE,
        POMURICA_START_SIZE, 192, POMURICA_OLD_STEP_SIZE, POMURICA_STEP_SIZE, 208, 0xFFFF
    };
    static const uint32_t KINDS[] = { 0, 1, 2, 3, 4, 5, 6, 0xFFFF };

    for (uint32_t record = 0; record <= STEPS + 1; record++)
        for (size_t i = 0; i < sizeof LENGTHS / sizeof LENGTHS[0]; i++)
            for (size_t j = 0; j < sizeof KINDS / sizeof KINDS[0]; j++)
                try_head(trace, record, LENGTHS[i], KINDS[j]);
}

/* What the old layout does not know: an event, and the answer that the new one gives where HDCR is 0. */
static const struct {
    uint32_t code, a, b;
} NEW_ALONE[] = {
    { POMURICA_EVENT_PREFETCH_ABORT, POMURICA_ABORT_DEBUG, 0 },
    { POMURICA_EVENT_NOTE, POMURICA_PLACE_HDCR, 0 },
    { POMURICA_EVENT_NOTE, POMURICA_PLACE_HDCR, POMURICA_HDCR_TDE },
};

/* The one Step of a trace shows BAD_EVENT, the value 0 and the block as it was. */
static void refuse_step(uint8_t *trace)
{
    uint8_t *const step = trace + start_size(old);

    pomurica_put_word(step, ANSWER, POMURICA_BAD_EVENT);
    pomurica_put_word(step, ANSWER + 1, 0);
    memcpy(step + 4 * STEP_BLOCK, trace + 4 * START_BLOCK, block_size(old));
}

/* Accepted or not, with one Step. */
static void expect_one(const uint8_t *trace, bool accepted)
{
    if (accepted)
        expect(trace, length_of(1), POMURICA_DONE, length_of(1), 1);
    else
        expect(trace, length_of(1), POMURICA_WRONG_STEP, start_size(old), 0);
}

/* A trace of one Step: refused with BAD_EVENT, and as the new layout has it done. */
static void run_new_alone(uint32_t cpsr)
{
    for (size_t i = 0; i < sizeof NEW_ALONE / sizeof NEW_ALONE[0]; i++) {
        const uint32_t event[1][3] = { { NEW_ALONE[i].code, NEW_ALONE[i].a, NEW_ALONE[i].b } };
        uint8_t trace[MOST_LENGTH], block[POMURICA_BLOCK_SIZE] = { 0 };

        pomurica_put_word(block, POMURICA_PLACE_CPSR, cpsr);
        pomurica_put_word(block, POMURICA_PLACE_SCR, POMURICA_SCR_NS);
        record(trace, block, event, 1); /* as the new layout does it */
        expect_one(trace, !old);
        refuse_step(trace);
        expect_one(trace, old);
    }
}

/* A check that is brought by bits of HCR, and the lines that bring the same without them. */
static const struct {
    uint32_t cpsr, stored, bits, lines, others, value;
} BY_LINE[] = {
    { 0x13, POMURICA_HCR_FMO, POMURICA_HCR_VF, POMURICA_LINE_VIRTUAL_FIQ, 0, 0x5111C },
    { 0x13, POMURICA_HCR_IMO, POMURICA_HCR_VI, POMURICA_LINE_VIRTUAL_IRQ, 0, 0x61218 },
    { 0x10, POMURICA_HCR_IMO, POMURICA_HCR_VI, POMURICA_LINE_VIRTUAL_IRQ, 0, 0x61218 },
    { 0x13, POMURICA_HCR_FMO | POMURICA_HCR_IMO, POMURICA_HCR_VF | POMURICA_HCR_VI,
      POMURICA_LINE_VIRTUAL_FIQ | POMURICA_LINE_VIRTUAL_IRQ, 0, 0x5111C },
    { 0x53, POMURICA_HCR_FMO | POMURICA_HCR_IMO, POMURICA_HCR_VF | POMURICA_HCR_VI,
      POMURICA_LINE_VIRTUAL_FIQ | POMURICA_LINE_VIRTUAL_IRQ, 0, 0x61218 }, /* F is masked */
    { 0x13, POMURICA_HCR_FMO, POMURICA_HCR_VF, POMURICA_LINE_VIRTUAL_FIQ, POMURICA_LINE_IRQ, 0x31218 }, /* IRQ goes before */
    { 0x13, 0, POMURICA_HCR_VF, POMURICA_LINE_VIRTUAL_FIQ, 0, 0 },         /* FMO is 0: nothing */
    { 0x1A, POMURICA_HCR_IMO, POMURICA_HCR_VI, POMURICA_LINE_VIRTUAL_IRQ, 0, 0 }, /* nor in Hyp */
};

/*
 * A trace of one check, which takes what it takes by HCR: so far it is right in both layouts.  The same by the lines, with
 * HCR without the bits in both blocks, is right in the old one alone; refused with BAD_EVENT, in the new one alone.
 */
static void run_by_line(size_t i)
{
    const uint32_t event[1][3] = { { POMURICA_EVENT_INTERRUPT_CHECK, BY_LINE[i].others, 0 } };
    uint8_t trace[MOST_LENGTH], block[POMURICA_BLOCK_SIZE] = { 0 };
    uint8_t *const step = trace + start_size(old);

    pomurica_put_word(block, POMURICA_PLACE_CPSR, BY_LINE[i].cpsr);
    pomurica_put_word(block, POMURICA_PLACE_SCR, POMURICA_SCR_NS);
    pomurica_put_word(block, POMURICA_PLACE_HCR, BY_LINE[i].stored | BY_LINE[i].bits);
    record(trace, block, event, 1);
    check(pomurica_get_word(step, ANSWER + 1) == BY_LINE[i].value, "row %zu: value 0x%X", i,
          pomurica_get_word(step, ANSWER + 1));
    expect_one(trace, true);
    pomurica_put_word(step, A, BY_LINE[i].others | BY_LINE[i].lines);
    expect_one(trace, old); /* the bits beside the lines */
    pomurica_put_word(trace, START_BLOCK + POMURICA_PLACE_HCR, BY_LINE[i].stored);
    pomurica_put_word(step, STEP_BLOCK + POMURICA_PLACE_HCR, BY_LINE[i].stored);
    expect_one(trace, old);
    refuse_step(trace);
    expect_one(trace, !old);
}

/* A call from one block, with a word of SCR that enables it and one that does not. */
struct call {
    uint32_t code, cpsr, enabled, disabled;
};

static const struct call CALLS[] = {
    { POMURICA_EVENT_SMC, 0x13, POMURICA_SCR_NS, POMURICA_SCR_NS | POMURICA_SCR_SCD },
    { POMURICA_EVENT_SMC, 0x1A, POMURICA_SCR_NS, POMURICA_SCR_NS | POMURICA_SCR_SCD },
    { POMURICA_EVENT_SMC, 0x13, 0, POMURICA_SCR_SCD },
    { POMURICA_EVENT_HVC, 0x13, POMURICA_SCR_NS | POMURICA_SCR_HCE, POMURICA_SCR_NS },
    { POMURICA_EVENT_HVC, 0x1A, POMURICA_SCR_NS | POMURICA_SCR_HCE, POMURICA_SCR_NS },
};

/*
 * The call is enabled, and was taken; the same with the other SCR, before and
 * after, is what document 01 took for right; and the call shown as DISABLED is
 * what is right now.
 */
static void run_call(const struct call *call)
{
    const uint32_t event[1][3] = { { call->code, 0, 0 } };
    const uint32_t whole = length_of(1);
    uint8_t trace[MOST_LENGTH], block[POMURICA_BLOCK_SIZE] = { 0 };
    uint8_t *const step = trace + start_size(old);

    pomurica_put_word(block, POMURICA_PLACE_CPSR, call->cpsr);
    pomurica_put_word(block, POMURICA_PLACE_SCR, call->enabled);
    record(trace, block, event, 1);
    check(pomurica_get_word(step, ANSWER) == POMURICA_DONE, "code %u: not taken", call->code);
    expect(trace, whole, POMURICA_DONE, whole, 1);
    pomurica_put_word(trace, START_BLOCK + POMURICA_PLACE_SCR, call->disabled);
    pomurica_put_word(step, STEP_BLOCK + POMURICA_PLACE_SCR, call->disabled);
    expect(trace, whole, POMURICA_WRONG_STEP, start_size(old), 0);
    memset(step + 4 * ANSWER, 0, POMURICA_ANSWER_SIZE);
    pomurica_put_word(step, ANSWER, POMURICA_DISABLED);
    memcpy(step + 4 * STEP_BLOCK, trace + 4 * START_BLOCK, block_size(old));
    expect(trace, whole, POMURICA_DONE, whole, 1);
}

/* A return from Non-secure Supervisor by a saved word, and the CPSR that it leaves. */
static const struct {
    uint32_t saved, cpsr;
} RETURNS[] = {
    { POMURICA_MODE_USER, POMURICA_MODE_USER },
    { POMURICA_CPSR_IL | POMURICA_MODE_IRQ, POMURICA_CPSR_IL | POMURICA_MODE_IRQ },
    { POMURICA_MODE_HYP, POMURICA_CPSR_IL | POMURICA_MODE_SUPERVISOR },
    { 0, POMURICA_CPSR_IL | POMURICA_MODE_SUPERVISOR },
};

/* The return is right as it was done; with another mode after it, with another IL, and refused as unknown, it is wrong. */
static void run_return(uint32_t saved, uint32_t cpsr)
{
    const uint32_t event[1][3] = { { POMURICA_EVENT_RETURN, 4, 0 } };
    const uint32_t whole = length_of(1);
    uint8_t trace[MOST_LENGTH], block[POMURICA_BLOCK_SIZE] = { 0 };
    uint8_t *const step = trace + start_size(old);

    pomurica_put_word(block, POMURICA_PLACE_CPSR, POMURICA_MODE_SUPERVISOR);
    pomurica_put_word(block, POMURICA_PLACE_SCR, POMURICA_SCR_NS);
    pomurica_put_word(block, POMURICA_PLACE_SPSR_SVC, saved);
    record(trace, block, event, 1);
    check(pomurica_get_word(step, STEP_BLOCK + POMURICA_PLACE_CPSR) == cpsr, "saved 0x%X: CPSR 0x%X", saved,
          pomurica_get_word(step, STEP_BLOCK + POMURICA_PLACE_CPSR));
    expect(trace, whole, POMURICA_DONE, whole, 1);
    pomurica_put_word(step, STEP_BLOCK + POMURICA_PLACE_CPSR, cpsr ^ POMURICA_MODE_USER ^ POMURICA_MODE_SYSTEM);
    expect(trace, whole, POMURICA_WRONG_STEP, start_size(old), 0);
    pomurica_put_word(step, STEP_BLOCK + POMURICA_PLACE_CPSR, cpsr ^ POMURICA_CPSR_IL);
    expect(trace, whole, POMURICA_WRONG_STEP, start_size(old), 0);
    pomurica_put_word(step, ANSWER, POMURICA_BAD_EVENT);
    memcpy(step + 4 * STEP_BLOCK, trace + 4 * START_BLOCK, block_size(old));
    expect(trace, whole, POMURICA_WRONG_STEP, start_size(old), 0);
}

static void run_report_lengths(const uint8_t *trace)
{
    for (size_t length = 0; length <= LONGEST_TRIED; length++) {
        struct lent lent;
        uint8_t *report = lend(&lent, OLD_REPORT, length, length % 16);

        if (length == POMURICA_REPORT_SIZE)
            continue;
        check(pomurica_check(trace, length_of(STEPS), report, length) == POMURICA_BAD_SIZE &&
                  take_back(&lent) && is_unchanged(&lent),
              "report of %zu bytes", length);
    }
}

/* All of it with traces of one layout. */
static void run_in(bool in_old)
{
    const char *const layout = layout_name(in_old);
    uint8_t trace[MOST_LENGTH], block[POMURICA_BLOCK_SIZE] = { 0 };

    old = in_old;
    pomurica_put_word(block, POMURICA_PLACE_CPSR, POMURICA_MODE_USER);
    record(trace, block, EVENTS, STEPS);
    group_of(layout, "an honest trace");
    expect(trace, length_of(STEPS), POMURICA_DONE, length_of(STEPS), STEPS);
    group_of(layout, "cut before each byte");
    run_cut(trace);
    group_of(layout, "bytes behind the End");
    run_trailing(trace);
    group_of(layout, "each byte of answer, value and block after changed");
    run_changed(trace);
    group_of(layout, "wrong counts");
    run_counts(trace);
    group_of(layout, "every length and kind in each head");
    run_heads(trace);
    group_of(layout, "a debug abort and notes on HDCR, shown as done and as refused");
    run_new_alone(POMURICA_MODE_USER);
    run_new_alone(POMURICA_MODE_SUPERVISOR);
    run_new_alone(POMURICA_MODE_HYP);
    group_of(layout, "checks with virtual lines, shown as done and as refused");
    for (size_t i = 0; i < sizeof BY_LINE / sizeof BY_LINE[0]; i++)
        run_by_line(i);
    group_of(layout, "calls that are disabled, shown as taken and as refused");
    for (size_t i = 0; i < sizeof CALLS / sizeof CALLS[0]; i++)
        run_call(&CALLS[i]);
    group_of(layout, "returns, shown as done, as another came of it, and as an unknown event");
    for (size_t i = 0; i < sizeof RETURNS / sizeof RETURNS[0]; i++)
        run_return(RETURNS[i].saved, RETURNS[i].cpsr);
    group_of(layout, "every length of the report from 0 to 210");
    run_report_lengths(trace);
}

int main(void)
{
    open_edge(MOST_LENGTH + POMURICA_STEP_SIZE);
    group("worked case l, and the same in the new layout");
    run_case_l();
    group("NULL with length 0, checker");
    run_null();
    run_in(false);
    run_in(true);
    return summary();
}
