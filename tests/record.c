/*
 * The recorder of the archive, called from C: worked case l, a trace of two
 * Steps whose words are written out here, lists of several lengths against a
 * trace made of single steps, every offset into a buffer and past it, each
 * refusal and their order.  After each call the whole buffer is compared with
 * what is due, and guard bytes around it (recordings.h); what was recorded goes
 * through the checker and through a session.
 */
#include "case_l.h"
#include "edge.h"
#include "events.h"
#include "group.h"
#include "recordings.h"

#include <inttypes.h>
#include <stdio.h>
#include <string.h>

#define COUNT(list) (sizeof(list) / sizeof((list)[0]))

enum {
    A_LONG_LIST = 1000,
    AROUND = 300,     /* bytes before and behind a trace, at most */
    SMALL_BUFFER = 700,
    LONGEST_BUFFER = POMURICA_LONGEST_TRACE + POMURICA_STEP_SIZE + AROUND
};

/* From Non-secure Supervisor: done events and refused ones of every kind, now and then two of a kind in a row. */
static const struct pomurica_event MIXED[] = {
    { POMURICA_EVENT_INTERRUPT_CHECK, POMURICA_LINE_IRQ, 0 },             /* enters IRQ mode */
    { POMURICA_EVENT_INTERRUPT_CHECK, POMURICA_LINE_IRQ, 0 },             /* masked by that entry */
    { POMURICA_EVENT_INTERRUPT_CHECK, POMURICA_LINE_VIRTUAL_FIQ, 0 },     /* BAD_EVENT */
    { POMURICA_EVENT_SVC, 1, 0 },                                         /* BAD_EVENT */
    { POMURICA_EVENT_RETURN + 1, 0, 0 },                                  /* BAD_EVENT */
    { POMURICA_EVENT_NOTE, POMURICA_PLACE_PC, 0x9000 },
    { POMURICA_EVENT_NOTE, POMURICA_PLACE_CPSR, 0 },                      /* BAD_MODE */
    { POMURICA_EVENT_NOTE, POMURICA_PLACE_HCR, POMURICA_HCR_TGE },        /* BAD_STATE */
    { POMURICA_EVENT_SVC, 0, 0 },                                         /* enters Supervisor */
    { POMURICA_EVENT_RETURN, 0, 0 },                                      /* and back */
    { POMURICA_EVENT_SVC, 0, 0 },                                         /* once more */
    { POMURICA_EVENT_RETURN, 3, 0 },                                      /* BAD_EVENT */
    { POMURICA_EVENT_BANKED_WRITE, 17, 0x12345678 },                      /* SP_irq */
    { POMURICA_EVENT_BANKED_READ, 17, 0 },
    { POMURICA_EVENT_NOTE, POMURICA_PLACE_CPSR, POMURICA_MODE_SUPERVISOR },
    { POMURICA_EVENT_NOTE, POMURICA_PLACE_HCR, POMURICA_HCR_IMO | POMURICA_HCR_VI },
    { POMURICA_EVENT_INTERRUPT_CHECK, POMURICA_LINE_VIRTUAL_IRQ, 0 },     /* BAD_EVENT */
    { POMURICA_EVENT_INTERRUPT_CHECK, 0, 0 },                             /* virtual IRQ: enters IRQ mode */
    { POMURICA_EVENT_NOTE, POMURICA_PLACE_HCR, 0 },
    { POMURICA_EVENT_RETURN, 4, 0 },                                      /* and back to Supervisor */
    { POMURICA_EVENT_HVC, 0, 0 },                                         /* DISABLED */
    { POMURICA_EVENT_NOTE, POMURICA_PLACE_SCR, POMURICA_SCR_NS | POMURICA_SCR_HCE | POMURICA_SCR_SCD },
    { POMURICA_EVENT_SMC, 0, 0 },                                         /* DISABLED */
    { POMURICA_EVENT_HVC, 0, 0 },                                         /* enters Hyp */
    { POMURICA_EVENT_HYP_TRAP, 0, 0 },                                    /* NOT_HERE */
    { POMURICA_EVENT_BANKED_READ, 7, 0 },                                 /* NO_REGISTER */
    { POMURICA_EVENT_BANKED_READ, 62, 0 },                                /* OWN_REGISTER */
    { POMURICA_EVENT_BANKED_READ, 29, 0 },                                /* NO_RIGHT */
    { POMURICA_EVENT_NOTE, POMURICA_PLACE_HDCR, POMURICA_HDCR_TDE },
    { POMURICA_EVENT_PREFETCH_ABORT, 6, 0 },                              /* BAD_EVENT */
    { POMURICA_EVENT_NOTE, POMURICA_PLACES, 0 },                          /* BAD_EVENT */
    { POMURICA_EVENT_NOTE, POMURICA_PLACE_CPSR, POMURICA_MODE_USER },
    { POMURICA_EVENT_PREFETCH_ABORT, POMURICA_ABORT_DEBUG, 0 },           /* enters Hyp by TDE */
    { POMURICA_EVENT_NOTE, POMURICA_PLACE_HDCR, 0 },
    { POMURICA_EVENT_NOTE, POMURICA_PLACE_SCR, POMURICA_SCR_NS },
    { POMURICA_EVENT_NOTE, POMURICA_PLACE_CPSR, POMURICA_MODE_SUPERVISOR }, /* and again from there */
};

/* The mix over and over. */
static struct pomurica_event events[EVENTS_MOST];

static struct recorded recorded;

/* So many events of the mix from a good block, with a buffer in which the trace has these bytes around it. */
static struct recording recording_of(size_t count, size_t before, size_t behind)
{
    struct recording asked = {
        .events = events, .events_len = count, .block_len = POMURICA_BLOCK_SIZE,
        .buffer_len = before + POMURICA_TRACE_SIZE(count) + behind, .offset = before
    };

    pomurica_put_word(asked.block, POMURICA_PLACE_CPSR, POMURICA_MODE_SUPERVISOR);
    pomurica_put_word(asked.block, POMURICA_PLACE_PC, 0x8000);
    pomurica_put_word(asked.block, POMURICA_PLACE_SCR, POMURICA_SCR_NS);
    pomurica_put_word(asked.block, POMURICA_PLACE_VBAR_NS, 0x10000000);
    return asked;
}

/* ---------------------------------------------------------- What is due */

/* One call: this number, and every byte of the buffer as it is due. */
static void expect_call(const struct recording *asked, uint32_t number, const uint8_t *due)
{
    char what[160];

    snprintf(what, sizeof what, "block of %zu, %zu events, buffer of %zu, offset %zu, %zu guard bytes behind",
             asked->block_len, asked->events_len, asked->buffer_len, asked->offset, asked->guards_behind);
    call_record(pomurica_record, asked, &recorded);
    check(recorded.number == number, "%s: number %" PRIu32 ", not %" PRIu32, what, recorded.number, number);
    check(recorded.guards_kept, "%s: a guard byte, an event or the block changed", what);
    check(memcmp(recorded.buffer, due, asked->buffer_len) == 0, "%s: the buffer is not what is due", what);
}

/* The number, and what is written then or not: with the buffer at the edge, and with guard bytes behind it. */
static void expect(struct recording asked, uint32_t number)
{
    static uint8_t due[LONGEST_BUFFER];

    put_old_bytes(due, asked.buffer_len);
    if (number == POMURICA_DONE)
        write_trace(pomurica_step, &asked, due + asked.offset);
    asked.guards_behind = GUARD_SIZE;
    expect_call(&asked, number, due);
    asked.guards_behind = 0;
    expect_call(&asked, number, due);
}

/* ------------------------------------------------------- Who accepts it */

/* A report accepts a trace of so many Steps. */
static void expect_accepting(const char *who, uint32_t number, const uint8_t *report, size_t steps)
{
    check(number == POMURICA_DONE && pomurica_get_word(report, POMURICA_REPORT_NUMBER) == POMURICA_DONE &&
              pomurica_get_word(report, POMURICA_REPORT_PLACE) == POMURICA_TRACE_SIZE(steps) &&
              pomurica_get_word(report, POMURICA_REPORT_STEPS) == steps,
          "%s, %zu Steps: %" PRIu32 " at %" PRIu32 " after %" PRIu32, who, steps, number,
          pomurica_get_word(report, POMURICA_REPORT_PLACE), pomurica_get_word(report, POMURICA_REPORT_STEPS));
}

/* Fed in runs of so many bytes: no fault is known, and closing accepts it. */
static void expect_session_accepts(const uint8_t *trace, size_t steps, size_t run)
{
    const size_t length = POMURICA_TRACE_SIZE(steps);
    uint8_t report[POMURICA_REPORT_SIZE];
    struct pomurica_session session;
    uint32_t numbers = POMURICA_DONE;

    pomurica_open(&session);
    for (size_t fed = 0; fed < length; fed += run)
        numbers |= pomurica_feed(&session, trace + fed, length - fed < run ? length - fed : run);
    check(numbers == POMURICA_DONE, "%zu Steps in runs of %zu: a feeding did not return 0", steps, run);
    expect_accepting("a session", pomurica_close(&session, report, sizeof report), report, steps);
}

/* What the last call wrote is accepted, alone and no byte more. */
static void expect_accepted(const struct recording *asked)
{
    static const size_t RUNS[] = { 1, 7, POMURICA_STEP_SIZE, 4096, LONGEST_BUFFER };
    const size_t length = POMURICA_TRACE_SIZE(asked->events_len);
    const uint8_t *const trace = lend_at_edge(recorded.buffer + asked->offset, length);
    uint8_t report[POMURICA_REPORT_SIZE];

    expect_accepting("the checker", pomurica_check(trace, length, report, sizeof report), report, asked->events_len);
    for (size_t i = 0; i < COUNT(RUNS); i++)
        expect_session_accepts(trace, asked->events_len, RUNS[i]);
}

static void expect_recorded(const struct recording *asked)
{
    expect(*asked, POMURICA_DONE);
    expect_accepted(asked);
}

/* ------------------------------------------------------- Written by hand */

/* Worked case l in the new layout: zeros and no event give the shortest trace, wherever it goes. */
static void do_case_l(void)
{
    for (size_t before = 0; before <= AROUND; before++) {
        struct recording asked = recording_of(0, before, AROUND - before);

        memset(asked.block, 0, sizeof asked.block);
        expect_recorded(&asked);
        check(memcmp(recorded.buffer + before, SHORTEST, SHORTEST_SIZE) == 0, "offset %zu: not case l", before);
    }
}

/* Words of a trace of two Steps. */
enum {
    START = 0,
    STEP_1 = POMURICA_START_SIZE / sizeof(uint32_t),
    STEP_2 = STEP_1 + POMURICA_STEP_SIZE / sizeof(uint32_t),
    END = STEP_2 + POMURICA_STEP_SIZE / sizeof(uint32_t),
    WORDS = END + POMURICA_END_SIZE / sizeof(uint32_t)
};

/* Worked case a, and then an event that there is not: all words that are not 0. */
static const uint32_t BY_HAND[WORDS] = {
    [START] = 0x000400BC, 2,
    [START + 2 + POMURICA_PLACE_CPSR] = 0x13, 0x8000, 1,
    [START + 2 + POMURICA_PLACE_VBAR_NS] = 0x10000000,
    [START + 2 + POMURICA_PLACE_HDCR] = 0x89ABCDEF,
    [STEP_1] = 0x000500CC, 9, 4, 0, 0, 0x31218,
    [STEP_1 + 6 + POMURICA_PLACE_LR_IRQ] = 0x8004,
    [STEP_1 + 6 + POMURICA_PLACE_SPSR_IRQ] = 0x13,
    [STEP_1 + 6 + POMURICA_PLACE_CPSR] = 0x192, 0x10000018, 1,
    [STEP_1 + 6 + POMURICA_PLACE_VBAR_NS] = 0x10000000,
    [STEP_1 + 6 + POMURICA_PLACE_HDCR] = 0x89ABCDEF,
    [STEP_2] = 0x000500CC, 0xFFFFFFFE, 0x01020304, 0xA0B0C0D0, 4, 0,
    [STEP_2 + 6 + POMURICA_PLACE_LR_IRQ] = 0x8004,
    [STEP_2 + 6 + POMURICA_PLACE_SPSR_IRQ] = 0x13,
    [STEP_2 + 6 + POMURICA_PLACE_CPSR] = 0x192, 0x10000018, 1,
    [STEP_2 + 6 + POMURICA_PLACE_VBAR_NS] = 0x10000000,
    [STEP_2 + 6 + POMURICA_PLACE_HDCR] = 0x89ABCDEF,
    [END] = 0x00030008, 2,
};

static void do_by_hand(void)
{
    static const struct pomurica_event TWO[] = { { 9, 4, 0 }, { 0xFFFFFFFE, 0x01020304, 0xA0B0C0D0 } };
    struct recording asked = recording_of(COUNT(TWO), 5, 5);

    asked.events = TWO;
    pomurica_put_word(asked.block, POMURICA_PLACE_HDCR, 0x89ABCDEF);
    expect_recorded(&asked);
    for (size_t i = 0; i < WORDS; i++) {
        const uint32_t word = pomurica_get_word(recorded.buffer + asked.offset, i);

        check(word == BY_HAND[i], "word %zu: 0x%" PRIX32 ", not 0x%" PRIX32, i, word, BY_HAND[i]);
    }
}

/* ----------------------------------------------------------- The lengths */

/* With no byte, one or many before the trace and behind it. */
static void do_length(size_t count)
{
    static const size_t BYTES[] = { 0, 1, 2, 3, 17, AROUND };

    for (size_t i = 0; i < COUNT(BYTES); i++)
        for (size_t j = 0; j < COUNT(BYTES); j++) {
            const struct recording asked = recording_of(count, BYTES[i], BYTES[j]);

            expect_recorded(&asked);
        }
}

/* A Step of what the last call wrote, from 0. */
static const uint8_t *step_of(const struct recording *asked, size_t i)
{
    return recorded.buffer + asked->offset + POMURICA_START_SIZE + i * POMURICA_STEP_SIZE;
}

/* Each event of the mix answers what its comment says; those behind a refused one are done as if it were not there. */
static void do_mixed(void)
{
    static const uint32_t NUMBERS[] = {
        0, 0, 4, 4, 4, 0, 2, 3, 0, 0, 0, 4, 0, 0, 0, 0, 4, 0, 0, 0, 16, 0, 16, 0, 5, 6, 17, 7, 0, 4, 4, 0, 0, 0, 0, 0
    };
    const struct recording asked = recording_of(COUNT(MIXED), 1, 1);

    _Static_assert(COUNT(NUMBERS) == COUNT(MIXED), "a number for each event");
    expect_recorded(&asked);
    for (size_t i = 0; i < COUNT(MIXED); i++) {
        const uint32_t number = pomurica_get_word(step_of(&asked, i), POMURICA_STEP_NUMBER);

        check(number == NUMBERS[i], "event %zu: %" PRIu32 ", not %" PRIu32, i, number, NUMBERS[i]);
    }
}

/* A block that is not good by its CPSR refuses every event so, no note repairs it, and the trace is accepted. */
static void do_not_good(uint32_t cpsr, uint32_t number)
{
    struct recording asked = recording_of(COUNT(MIXED), 3, 0);

    pomurica_put_word(asked.block, POMURICA_PLACE_CPSR, cpsr);
    expect_recorded(&asked);
    for (size_t i = 0; i < COUNT(MIXED); i++) {
        const uint8_t *const step = step_of(&asked, i), *const block = step + sizeof(uint32_t) * POMURICA_STEP_BLOCK;

        check(pomurica_get_word(step, POMURICA_STEP_NUMBER) == number &&
                  pomurica_get_word(step, POMURICA_STEP_VALUE) == 0 &&
                  memcmp(block, asked.block, POMURICA_BLOCK_SIZE) == 0,
              "CPSR 0x%" PRIX32 ": event %zu is not refused", cpsr, i);
    }
}

/* One trace right behind another, in one buffer that keeps the first. */
static void do_one_behind_another(void)
{
    enum { TRACE = POMURICA_START_SIZE + 2 * POMURICA_STEP_SIZE + POMURICA_END_SIZE };
    const struct recording asked = recording_of(2, 0, 0);
    uint8_t buffer[2 * TRACE], due[TRACE];

    write_trace(pomurica_step, &asked, due);
    memset(buffer, 0, sizeof buffer);
    for (size_t offset = 0; offset < sizeof buffer; offset += TRACE) {
        const uint32_t number =
            pomurica_record(asked.block, POMURICA_BLOCK_SIZE, events, 2, buffer, sizeof buffer, offset);

        check(number == POMURICA_DONE, "offset %zu: %" PRIu32, offset, number);
    }
    check(memcmp(buffer, due, TRACE) == 0 && memcmp(buffer + TRACE, due, TRACE) == 0, "not twice the trace");
}

/* ----------------------------------------------------------- The offsets */

/* Of a small offset: a sum says whether the trace fits. */
static void expect_by_sum(const struct recording *asked)
{
    const size_t end = asked->offset + POMURICA_TRACE_SIZE(asked->events_len);

    expect(*asked, end <= asked->buffer_len ? POMURICA_DONE : POMURICA_NO_ROOM);
}

/* Every offset into a small buffer and past its end. */
static void do_every_offset(size_t count)
{
    struct recording asked = recording_of(count, 0, 0);

    asked.buffer_len = SMALL_BUFFER;
    for (asked.offset = 0; asked.offset <= SMALL_BUFFER + AROUND; asked.offset++)
        expect_by_sum(&asked);
}

/* Every length of a buffer, from its first byte on and from a little behind it. */
static void do_every_buffer(size_t count)
{
    static const size_t OFFSETS[] = { 0, 1, 8, POMURICA_START_SIZE };
    struct recording asked = recording_of(count, 0, 0);

    for (size_t i = 0; i < COUNT(OFFSETS); i++) {
        asked.offset = OFFSETS[i];
        for (asked.buffer_len = 0; asked.buffer_len <= SMALL_BUFFER + AROUND; asked.buffer_len++)
            expect_by_sum(&asked);
    }
}

/* From a little before such an offset to a little behind it there is no room. */
static void do_far_offset(size_t count, size_t buffer_len, size_t offset)
{
    struct recording asked = recording_of(count, 0, 0);

    asked.buffer_len = buffer_len;
    for (asked.offset = offset - 8; asked.offset != offset + 8; asked.offset++)
        expect(asked, POMURICA_NO_ROOM);
}

/* Numbers that are negative where they are taken so, or fit by their lower half; sums that wrap to what is small. */
static void do_far_offsets(size_t count, size_t buffer_len)
{
    const size_t size = POMURICA_TRACE_SIZE(count), behind_words = (size_t)UINT32_MAX + 1;
    const size_t offsets[] = {
        SIZE_MAX - 7, SIZE_MAX - SHORTEST_SIZE + 1, SIZE_MAX - size, SIZE_MAX - size + SHORTEST_SIZE / 2,
        SIZE_MAX - buffer_len, SIZE_MAX / 2, SIZE_MAX / 2 - size, SIZE_MAX / 4, SIZE_MAX / POMURICA_STEP_SIZE,
        behind_words, behind_words + 16, behind_words + buffer_len - size, behind_words / 2, behind_words * 256 + 16
    };

    for (size_t i = 0; i < COUNT(offsets); i++)
        do_far_offset(count, buffer_len, offsets[i]);
}

/* ------------------------------------------- The other refusals, in order */

/* Every length of a block but its own: 1, whatever else is wrong. */
static void do_blocks(void)
{
    static const size_t COUNTS[] = { 0, 1, A_LONG_LIST, POMURICA_MOST_STEPS + 1 };
    static const size_t OFFSETS[] = { 0, SMALL_BUFFER, SMALL_BUFFER + 1, SIZE_MAX };

    for (size_t block_len = 0; block_len <= LONGEST_TRIED; block_len++)
        for (size_t i = 0; i < COUNT(COUNTS) && block_len != POMURICA_BLOCK_SIZE; i++)
            for (size_t j = 0; j < COUNT(OFFSETS); j++) {
                struct recording asked = recording_of(COUNTS[i], 0, 0);

                asked.block_len = block_len;
                asked.buffer_len = SMALL_BUFFER;
                asked.offset = OFFSETS[j];
                expect(asked, POMURICA_BAD_SIZE);
            }
}

/* So many events, in such a buffer, from such an offset. */
static void do_count(size_t count, size_t buffer_len, size_t offset, uint32_t number)
{
    struct recording asked = recording_of(count, 0, 0);

    asked.buffer_len = buffer_len;
    asked.offset = offset;
    expect(asked, number);
}

/* 65,535 events are recorded where there is room; one more is refused, room or not. */
static void do_counts(void)
{
    const size_t most = POMURICA_MOST_STEPS, longest = POMURICA_LONGEST_TRACE;
    const struct recording asked = recording_of(most, 1, AROUND - 1);

    expect_recorded(&asked);
    do_count(most, longest, 0, POMURICA_DONE);
    do_count(most, longest + AROUND, AROUND, POMURICA_DONE);
    do_count(most, longest - 1, 0, POMURICA_NO_ROOM);
    do_count(most, longest + AROUND, AROUND + 1, POMURICA_NO_ROOM);
    do_count(most, longest + AROUND, SIZE_MAX - longest + 1, POMURICA_NO_ROOM);
    do_count(most, 0, 0, POMURICA_NO_ROOM);
    do_count(most - 1, longest - POMURICA_STEP_SIZE, 0, POMURICA_DONE);
    for (size_t count = most + 1; count <= EVENTS_MOST; count++) {
        do_count(count, LONGEST_BUFFER, 0, POMURICA_BAD_COUNT);
        do_count(count, SMALL_BUFFER, 0, POMURICA_BAD_COUNT);
        do_count(count, SMALL_BUFFER, SMALL_BUFFER, POMURICA_BAD_COUNT);
        do_count(count, SMALL_BUFFER, SIZE_MAX, POMURICA_BAD_COUNT);
        do_count(count, 0, 0, POMURICA_BAD_COUNT);
    }
}

/* ------------------------------------------------------------------ NULL */

/* No buffer, and whatever else has the length 0, at NULL. */
static void expect_null(size_t block_len, size_t events_len, size_t offset, uint32_t due)
{
    static const uint8_t BLOCK[POMURICA_BLOCK_SIZE];
    const uint8_t *const block = block_len == 0 ? NULL : BLOCK;
    const struct pomurica_event *const list = events_len == 0 ? NULL : events;
    const uint32_t number = pomurica_record(block, block_len, list, events_len, NULL, 0, offset);

    check(number == due, "block of %zu, %zu events, no buffer, offset %zu: %" PRIu32 ", not %" PRIu32, block_len,
          events_len, offset, number, due);
}

static void do_null(void)
{
    static const size_t OFFSETS[] = { 0, 1, SHORTEST_SIZE, SIZE_MAX - SHORTEST_SIZE + 1, SIZE_MAX };
    static const uint8_t BLOCK[POMURICA_BLOCK_SIZE];
    uint8_t buffer[SHORTEST_SIZE] = { 0 };

    for (size_t i = 0; i < COUNT(OFFSETS); i++) {
        expect_null(0, 0, OFFSETS[i], POMURICA_BAD_SIZE);
        expect_null(0, EVENTS_MOST, OFFSETS[i], POMURICA_BAD_SIZE);
        expect_null(POMURICA_BLOCK_SIZE, EVENTS_MOST, OFFSETS[i], POMURICA_BAD_COUNT);
        expect_null(POMURICA_BLOCK_SIZE, 1, OFFSETS[i], POMURICA_NO_ROOM);
        expect_null(POMURICA_BLOCK_SIZE, 0, OFFSETS[i], POMURICA_NO_ROOM);
    }
    check(pomurica_record(NULL, 0, NULL, 0, buffer, sizeof buffer, 0) == POMURICA_BAD_SIZE && buffer[0] == 0,
          "no block");
    check(pomurica_record(BLOCK, sizeof BLOCK, NULL, 0, buffer, sizeof buffer, 0) == POMURICA_DONE &&
              memcmp(buffer, SHORTEST, sizeof buffer) == 0,
          "no events: not case l");
}

/* ------------------------------------------------------------------- All */

static void run_recordings(void)
{
    static const size_t LENGTHS[] = { 0, 1, 2, 3, COUNT(MIXED), A_LONG_LIST };

    group("worked case l, at every offset");
    do_case_l();
    group("a trace of two Steps, by hand");
    do_by_hand();
    group("traces of 0, 1, 2 and more events to 1,000, with bytes around them");
    for (size_t i = 0; i < COUNT(LENGTHS); i++)
        do_length(LENGTHS[i]);
    group("refused events between done ones");
    do_mixed();
    group("a block that is not good: each event is refused, and the trace accepted");
    do_not_good(0, POMURICA_BAD_MODE);
    do_not_good(POMURICA_CPSR_BITS_24_21 | POMURICA_MODE_SUPERVISOR, POMURICA_BAD_STATE);
    group("one trace behind another");
    do_one_behind_another();
}

static void run_refusals(void)
{
    group("every offset into a buffer, and past its end");
    for (size_t count = 0; count <= 3; count++)
        do_every_offset(count);
    group("every length of a buffer");
    for (size_t count = 0; count <= 3; count++)
        do_every_buffer(count);
    group("offsets near the largest number, and that wrap");
    for (size_t count = 0; count <= 2; count++)
        do_far_offsets(count, SMALL_BUFFER);
    do_far_offsets(A_LONG_LIST, POMURICA_TRACE_SIZE(A_LONG_LIST) + AROUND);
    do_far_offsets(POMURICA_MOST_STEPS, SMALL_BUFFER);
    group("every length of the block from 0 to 210 but its own: before any other refusal");
    do_blocks();
    group("65,535 events, and more: refused before the room is asked for");
    do_counts();
    group("NULL with length 0");
    do_null();
}

int main(void)
{
    for (size_t i = 0; i < EVENTS_MOST; i++)
        events[i] = MIXED[i % COUNT(MIXED)];
    open_edge(LONGEST_BUFFER); /* for traces, and so for events */
    open_recorded(&recorded, LONGEST_BUFFER);
    run_recordings();
    run_refusals();
    return summary();
}
