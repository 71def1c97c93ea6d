/*
 * The counts of the archive, called from C, of traces of both layouts: a trace
 * that has every class there is, counted onto nothing, onto other counts and onto
 * counts that are almost full; each refusal; and the lines of counts, in rooms of
 * every kind.  Each buffer is also lent with wrong sizes.
 */
#include "case_l.h"
#include "edge.h"
#include "group.h"
#include "lent.h"
#include "pomurica.h"
#include "traces.h"

#include "../host/record.h"

#include <inttypes.h>
#include <stdio.h>
#include <stdlib.h>
#include <string.h>

#define COUNT(list) (sizeof(list) / sizeof((list)[0]))

enum {
    WORDS = POMURICA_COUNTS_SIZE / 4,
    BYTE = 0x5C /* what a room holds before a call */
};

/* Under these a virtual SError is pending, and in the old layout the lines of virtual interrupts count. */
#define VIRTUAL (POMURICA_HCR_AMO | POMURICA_HCR_IMO | POMURICA_HCR_FMO | POMURICA_HCR_VA)

/* From Non-secure User: every code, answer, target and interrupt that the rules can bring about. */
static const struct event EVENTS[] = {
    { POMURICA_EVENT_SVC, 0, 0 },                                        /* enters Supervisor */
    { POMURICA_EVENT_INTERRUPT_CHECK, POMURICA_LINE_IRQ, 0 },            /* masked: nothing */
    { POMURICA_EVENT_INTERRUPT_CHECK, POMURICA_LINE_FIQ, 0 },            /* FIQ */
    { POMURICA_EVENT_INTERRUPT_CHECK, 0, 0 },                            /* nothing */
    { POMURICA_EVENT_HVC, 0, 0 },                                        /* DISABLED */
    { POMURICA_EVENT_NOTE, POMURICA_PLACE_SCR, POMURICA_SCR_NS | POMURICA_SCR_HCE | POMURICA_SCR_SCD },
    { POMURICA_EVENT_SMC, 0, 0 },                                        /* DISABLED */
    { POMURICA_EVENT_NOTE, POMURICA_PLACE_SCR, POMURICA_SCR_NS | POMURICA_SCR_HCE },
    { POMURICA_EVENT_HVC, 0, 0 },                                        /* enters Hyp */
    { POMURICA_EVENT_SVC, 1, 0 },                                        /* BAD_EVENT, of a known code, twice */
    { POMURICA_EVENT_INTERRUPT_CHECK, 32, 0 },
    { 0, 0, 0 },                                                         /* BAD_EVENT, of no code, four times */
    { POMURICA_EVENT_RETURN + 1, 0, 0 },
    { 0xFFFFFFFF, 0, 0 },
    { UINT32_C(1) << 31 | POMURICA_EVENT_SVC, 0, 0 },
    { POMURICA_EVENT_HYP_TRAP, 0, 0 },                                   /* NOT_HERE */
    { POMURICA_EVENT_BANKED_READ, 7, 0 },                                /* NO_REGISTER */
    { POMURICA_EVENT_BANKED_READ, 62, 0 },                               /* OWN_REGISTER */
    { POMURICA_EVENT_BANKED_READ, 29, 0 },                               /* NO_RIGHT */
    { POMURICA_EVENT_NOTE, POMURICA_PLACE_CPSR, 0 },                     /* BAD_MODE */
    { POMURICA_EVENT_NOTE, POMURICA_PLACE_SCR, 0 },                      /* BAD_STATE */
    { POMURICA_EVENT_NOTE, POMURICA_PLACE_CPSR, POMURICA_MODE_SUPERVISOR },
    { POMURICA_EVENT_SMC, 0, 0 },                                        /* enters Monitor */
    { POMURICA_EVENT_UNDEFINED, 0, 0 },                                  /* enters Undefined, Secure now */
    { POMURICA_EVENT_DATA_ABORT, 0, 0 },                                 /* enters Abort */
    { POMURICA_EVENT_PREFETCH_ABORT, 0, 0 },                             /* enters Abort */
    { POMURICA_EVENT_MONITOR_TRAP, 0, 0 },                               /* enters Monitor */
    { POMURICA_EVENT_NOTE, POMURICA_PLACE_CPSR, POMURICA_MODE_SUPERVISOR },
    { POMURICA_EVENT_INTERRUPT_CHECK, POMURICA_LINE_IRQ, 0 },            /* IRQ */
    { POMURICA_EVENT_NOTE, POMURICA_PLACE_CPSR, POMURICA_MODE_SUPERVISOR },
    { POMURICA_EVENT_INTERRUPT_CHECK, POMURICA_LINE_SERROR, 0 },         /* SError, to Abort */
    { POMURICA_EVENT_NOTE, POMURICA_PLACE_SCR, POMURICA_SCR_NS },
    { POMURICA_EVENT_NOTE, POMURICA_PLACE_HCR, VIRTUAL },
    { POMURICA_EVENT_NOTE, POMURICA_PLACE_CPSR, POMURICA_MODE_SUPERVISOR },
    { POMURICA_EVENT_INTERRUPT_CHECK, 0, 0 },                            /* virtual SError, to Abort */
    { POMURICA_EVENT_NOTE, POMURICA_PLACE_CPSR, POMURICA_MODE_SUPERVISOR },
    { POMURICA_EVENT_INTERRUPT_CHECK, POMURICA_LINE_VIRTUAL_FIQ, 0 },    /* in the old layout virtual FIQ, else BAD_EVENT */
    { POMURICA_EVENT_NOTE, POMURICA_PLACE_CPSR, POMURICA_MODE_SUPERVISOR },
    { POMURICA_EVENT_INTERRUPT_CHECK, POMURICA_LINE_VIRTUAL_IRQ, 0 },    /* there virtual IRQ, else BAD_EVENT */
    { POMURICA_EVENT_NOTE, POMURICA_PLACE_HCR, POMURICA_HCR_FMO | POMURICA_HCR_VF },
    { POMURICA_EVENT_NOTE, POMURICA_PLACE_CPSR, POMURICA_MODE_SUPERVISOR },
    { POMURICA_EVENT_INTERRUPT_CHECK, 0, 0 },                            /* virtual FIQ */
    { POMURICA_EVENT_NOTE, POMURICA_PLACE_HCR, POMURICA_HCR_IMO | POMURICA_HCR_VI },
    { POMURICA_EVENT_NOTE, POMURICA_PLACE_CPSR, POMURICA_MODE_SUPERVISOR },
    { POMURICA_EVENT_INTERRUPT_CHECK, 0, 0 },                            /* virtual IRQ */
    { POMURICA_EVENT_BANKED_WRITE, 19, 0x31A18 },                        /* SP_svc, with what an entry's value may be */
    { POMURICA_EVENT_BANKED_READ, 19, 0 },
    { POMURICA_EVENT_RETURN, 4, 0 },                                     /* back to Supervisor, and no entry to it */
    { POMURICA_EVENT_NOTE, POMURICA_PLACE_SPSR_SVC, POMURICA_MODE_HYP },
    { POMURICA_EVENT_RETURN, 0, 0 },                                     /* illegal, and done */
    { POMURICA_EVENT_RETURN, 5, 0 },                                     /* BAD_EVENT, of a known code */
    { POMURICA_EVENT_NOTE, POMURICA_PLACE_HDCR, POMURICA_HDCR_TDE },     /* in the old layout BAD_EVENT, both */
    { POMURICA_EVENT_PREFETCH_ABORT, POMURICA_ABORT_DEBUG, 0 },          /* enters Hyp */
};

/* What they come to, in the new layout and in the old one. */
static const struct class {
    uint32_t group, number, count[2];
} CLASSES[] = {
    { POMURICA_GROUP_CODE, 0, { 4, 4 } },
    { POMURICA_GROUP_CODE, POMURICA_EVENT_UNDEFINED, { 1, 1 } },
    { POMURICA_GROUP_CODE, POMURICA_EVENT_SVC, { 2, 2 } },
    { POMURICA_GROUP_CODE, POMURICA_EVENT_SMC, { 2, 2 } },
    { POMURICA_GROUP_CODE, POMURICA_EVENT_HVC, { 2, 2 } },
    { POMURICA_GROUP_CODE, POMURICA_EVENT_PREFETCH_ABORT, { 2, 2 } },
    { POMURICA_GROUP_CODE, POMURICA_EVENT_DATA_ABORT, { 1, 1 } },
    { POMURICA_GROUP_CODE, POMURICA_EVENT_HYP_TRAP, { 1, 1 } },
    { POMURICA_GROUP_CODE, POMURICA_EVENT_MONITOR_TRAP, { 1, 1 } },
    { POMURICA_GROUP_CODE, POMURICA_EVENT_INTERRUPT_CHECK, { 11, 11 } },
    { POMURICA_GROUP_CODE, POMURICA_EVENT_BANKED_READ, { 4, 4 } },
    { POMURICA_GROUP_CODE, POMURICA_EVENT_BANKED_WRITE, { 1, 1 } },
    { POMURICA_GROUP_CODE, POMURICA_EVENT_NOTE, { 18, 18 } },
    { POMURICA_GROUP_CODE, POMURICA_EVENT_RETURN, { 3, 3 } },
    { POMURICA_GROUP_ANSWER, POMURICA_DONE, { 36, 36 } },
    { POMURICA_GROUP_ANSWER, POMURICA_BAD_MODE, { 1, 1 } },
    { POMURICA_GROUP_ANSWER, POMURICA_BAD_STATE, { 1, 1 } },
    { POMURICA_GROUP_ANSWER, POMURICA_BAD_EVENT, { 9, 9 } },
    { POMURICA_GROUP_ANSWER, POMURICA_NOT_HERE, { 1, 1 } },
    { POMURICA_GROUP_ANSWER, POMURICA_NO_REGISTER, { 1, 1 } },
    { POMURICA_GROUP_ANSWER, POMURICA_NO_RIGHT, { 1, 1 } },
    { POMURICA_GROUP_ANSWER, POMURICA_DISABLED, { 2, 2 } },
    { POMURICA_GROUP_ANSWER, POMURICA_OWN_REGISTER, { 1, 1 } },
    { POMURICA_GROUP_TARGET, POMURICA_MODE_FIQ, { 2, 3 } },
    { POMURICA_GROUP_TARGET, POMURICA_MODE_IRQ, { 2, 3 } },
    { POMURICA_GROUP_TARGET, POMURICA_MODE_SUPERVISOR, { 1, 1 } },
    { POMURICA_GROUP_TARGET, POMURICA_MODE_MONITOR, { 2, 2 } },
    { POMURICA_GROUP_TARGET, POMURICA_MODE_ABORT, { 4, 4 } },
    { POMURICA_GROUP_TARGET, POMURICA_MODE_HYP, { 2, 1 } },
    { POMURICA_GROUP_TARGET, POMURICA_MODE_UNDEFINED, { 1, 1 } },
    { POMURICA_GROUP_TAKEN, 0, { 2, 2 } },
    { POMURICA_GROUP_TAKEN, POMURICA_WHICH_SERROR, { 1, 1 } },
    { POMURICA_GROUP_TAKEN, POMURICA_WHICH_FIQ, { 1, 1 } },
    { POMURICA_GROUP_TAKEN, POMURICA_WHICH_IRQ, { 1, 1 } },
    { POMURICA_GROUP_TAKEN, POMURICA_WHICH_VIRTUAL_SERROR, { 1, 1 } },
    { POMURICA_GROUP_TAKEN, POMURICA_WHICH_VIRTUAL_FIQ, { 1, 2 } },
    { POMURICA_GROUP_TAKEN, POMURICA_WHICH_VIRTUAL_IRQ, { 1, 2 } },
};

enum {
    STEPS = COUNT(EVENTS),
    MOST_LENGTH = POMURICA_START_SIZE + STEPS * POMURICA_STEP_SIZE + POMURICA_END_SIZE
};

/* The layout of the traces, by which everything here goes. */
static bool old;

static size_t end_place(void)
{
    return record_place(old, STEPS + 1);
}

static size_t trace_length(void)
{
    return end_place() + POMURICA_END_SIZE;
}

/* --------------------------------------------------------------- Traces */

/* A Step behind the record that has the block before it: what its layout gives. */
static void put_step(uint8_t *step, const struct event *event)
{
    struct due due;

    pomurica_put_word(step, POMURICA_RECORD_HEAD, old ? POMURICA_OLD_STEP_HEAD : POMURICA_STEP_HEAD);
    pomurica_put_word(step, POMURICA_STEP_CODE, event->code);
    pomurica_put_word(step, POMURICA_STEP_A, event->a);
    pomurica_put_word(step, POMURICA_STEP_B, event->b);
    find_due(step, &due);
    memcpy(step + 4 * POMURICA_STEP_NUMBER, due.answer, sizeof due.answer);
    memcpy(step + 4 * POMURICA_STEP_BLOCK, due.block, block_size(old));
}

/* The trace of n events, each so many times, as a recorder writes it. */
static void record(uint8_t *trace, const struct event *events, uint32_t n, uint32_t times)
{
    uint8_t block[POMURICA_BLOCK_SIZE] = { 0 };
    uint8_t *record = trace;

    pomurica_put_word(block, POMURICA_PLACE_CPSR, POMURICA_MODE_USER);
    pomurica_put_word(block, POMURICA_PLACE_SCR, POMURICA_SCR_NS);
    pomurica_put_word(record, POMURICA_RECORD_HEAD, old ? POMURICA_OLD_START_HEAD : POMURICA_START_HEAD);
    pomurica_put_word(record, POMURICA_RECORD_COUNT, n * times);
    memcpy(record + 4 * POMURICA_START_BLOCK, block, block_size(old));
    record += start_size(old);
    for (uint32_t i = 0; i < n * times; i++, record += step_size(old))
        put_step(record, &events[i / times]);
    pomurica_put_word(record, POMURICA_RECORD_HEAD, POMURICA_END_HEAD);
    pomurica_put_word(record, POMURICA_RECORD_COUNT, n * times);
}

/* --------------------------------------------------------------- Counts */

static size_t word_of(const struct class *class)
{
    return POMURICA_GROUP_SIZE * (class->group - 1) + class->number;
}

/* Counts that differ from word to word, with some at both ends of their range where no class is. */
static void put_old_counts(uint8_t *counts)
{
    for (uint32_t word = 0; word < WORDS; word++)
        pomurica_put_word(counts, word, word * 0x01234567);
    pomurica_put_word(counts, POMURICA_GROUP_SIZE - 1, UINT32_MAX);
    pomurica_put_word(counts, WORDS - 1, UINT32_MAX);
}

/* What the trace makes of counts in which all fits. */
static void add_classes(uint8_t *counts)
{
    for (size_t i = 0; i < COUNT(CLASSES); i++) {
        const size_t word = word_of(&CLASSES[i]);

        pomurica_put_word(counts, word, pomurica_get_word(counts, word) + CLASSES[i].count[old]);
    }
}

/* The number is this one, the counts become those, and nothing else changes. */
static void expect_count(const char *what, const uint8_t *bytes, size_t length,
                         const uint8_t *counts, size_t counts_len, uint32_t number, const uint8_t *due)
{
    const uint8_t *trace = lend_at_edge(bytes, length);
    struct lent lent;
    uint8_t *lent_counts = lend(&lent, counts, counts_len, length % (MOST_SHIFT + 1));
    const uint32_t returned = pomurica_count(trace, length, lent_counts, counts_len);

    check(take_back(&lent), "%s: a guard byte changed", what);
    check(memcmp(trace, bytes, length) == 0, "%s: the trace changed", what);
    check(returned == number, "%s: number %" PRIu32 ", not %" PRIu32, what, returned, number);
    check(memcmp(bytes_of(&lent), due, counts_len) == 0, "%s: the counts differ", what);
}

static void count_onto_others(const uint8_t *trace)
{
    uint8_t counts[POMURICA_COUNTS_SIZE] = { 0 }, due[POMURICA_COUNTS_SIZE] = { 0 };

    add_classes(due);
    expect_count("onto nothing", trace, trace_length(), counts, sizeof counts, POMURICA_DONE, due);
    memcpy(counts, due, sizeof counts);
    add_classes(due);
    expect_count("once more", trace, trace_length(), counts, sizeof counts, POMURICA_DONE, due);
    put_old_counts(counts);
    put_old_counts(due);
    add_classes(due);
    expect_count("onto others", trace, trace_length(), counts, sizeof counts, POMURICA_DONE, due);
}

/* Each class in turn: the count that just fits, and one more. */
static void count_almost_full(const uint8_t *trace)
{
    uint8_t counts[POMURICA_COUNTS_SIZE], due[POMURICA_COUNTS_SIZE];

    for (size_t i = 0; i < COUNT(CLASSES); i++) {
        const size_t word = word_of(&CLASSES[i]);
        char what[64];

        snprintf(what, sizeof what, "group %" PRIu32 ", number %" PRIu32, CLASSES[i].group, CLASSES[i].number);
        memset(counts, 0, sizeof counts);
        pomurica_put_word(counts, word, UINT32_MAX - CLASSES[i].count[old]);
        memcpy(due, counts, sizeof due);
        add_classes(due);
        expect_count(what, trace, trace_length(), counts, sizeof counts, POMURICA_DONE, due);
        pomurica_put_word(counts, word, UINT32_MAX - CLASSES[i].count[old] + 1);
        expect_count(what, trace, trace_length(), counts, sizeof counts, POMURICA_FULL, counts);
    }
}

/* Every count full: of the classes none fits; and all others may stay so. */
static void count_full(const uint8_t *trace)
{
    uint8_t counts[POMURICA_COUNTS_SIZE], due[POMURICA_COUNTS_SIZE];

    memset(counts, 0xFF, sizeof counts);
    expect_count("all full", trace, trace_length(), counts, sizeof counts, POMURICA_FULL, counts);
    for (size_t i = 0; i < COUNT(CLASSES); i++)
        pomurica_put_word(counts, word_of(&CLASSES[i]), UINT32_MAX - CLASSES[i].count[old]);
    memset(due, 0xFF, sizeof due);
    expect_count("all others full", trace, trace_length(), counts, sizeof counts, POMURICA_DONE, due);
}

/* A refused trace, onto counts with room and onto full ones. */
static void expect_refusal(const uint8_t *trace, size_t length, uint32_t number)
{
    uint8_t counts[POMURICA_COUNTS_SIZE];

    put_old_counts(counts);
    expect_count(pomurica_number_name(number), trace, length, counts, sizeof counts, number, counts);
    memset(counts, 0xFF, sizeof counts);
    expect_count(pomurica_number_name(number), trace, length, counts, sizeof counts, number, counts);
}

/* Each of 8 to 12, where a careless count has already seen every Step, or all but the last. */
static void count_refused(const uint8_t *trace)
{
    uint8_t changed[MOST_LENGTH + 1];
    uint8_t *const end = changed + end_place();

    memcpy(changed, trace, trace_length());
    changed[trace_length()] = 0;
    expect_refusal(changed, trace_length() + 1, POMURICA_TRAILING);
    expect_refusal(changed, trace_length() - 1, POMURICA_SHORT);
    expect_refusal(changed, 0, POMURICA_SHORT);
    pomurica_put_word(end, POMURICA_RECORD_HEAD, old ? POMURICA_OLD_STEP_HEAD : POMURICA_STEP_HEAD);
    expect_refusal(changed, trace_length(), POMURICA_BAD_RECORD);
    pomurica_put_word(end, POMURICA_RECORD_HEAD, POMURICA_END_HEAD);
    pomurica_put_word(end, POMURICA_RECORD_COUNT, STEPS + 1);
    expect_refusal(changed, trace_length(), POMURICA_BAD_COUNT);
    pomurica_put_word(end, POMURICA_RECORD_COUNT, STEPS);
    end[-1] ^= 1;
    expect_refusal(changed, trace_length(), POMURICA_WRONG_STEP);
}

/* The most that one trace can add to a count, all of it of a code that the rules do not know. */
static void count_longest(void)
{
    static const struct event NONE = { 0, 0, 0 };
    const size_t bad_event = POMURICA_GROUP_SIZE * (POMURICA_GROUP_ANSWER - 1) + POMURICA_BAD_EVENT;
    uint8_t counts[POMURICA_COUNTS_SIZE] = { 0 }, due[POMURICA_COUNTS_SIZE] = { 0 };
    const size_t longest = old ? POMURICA_OLD_LONGEST_TRACE : POMURICA_LONGEST_TRACE;
    uint8_t *trace = malloc(longest);

    if (!check(trace != NULL, "no memory"))
        return;
    record(trace, &NONE, 1, POMURICA_MOST_STEPS);
    pomurica_put_word(counts, 0, UINT32_MAX - POMURICA_MOST_STEPS);
    pomurica_put_word(due, 0, UINT32_MAX);
    pomurica_put_word(due, bad_event, POMURICA_MOST_STEPS);
    expect_count("fits", trace, longest, counts, sizeof counts, POMURICA_DONE, due);
    pomurica_put_word(counts, 0, UINT32_MAX - POMURICA_MOST_STEPS + 1);
    expect_count("one too many", trace, longest, counts, sizeof counts, POMURICA_FULL, counts);
    free(trace);
}

/* Wrong sizes, on a trace that is accepted and on one that is not. */
static void count_sizes(const uint8_t *trace)
{
    static const size_t WRONG[] = { 0, 1, 4, POMURICA_COUNTS_SIZE - 1, POMURICA_COUNTS_SIZE + 1, 2 * POMURICA_COUNTS_SIZE };
    uint8_t counts[2 * POMURICA_COUNTS_SIZE];

    memset(counts, BYTE, sizeof counts);
    for (size_t i = 0; i < COUNT(WRONG); i++) {
        char what[64];

        snprintf(what, sizeof what, "counts of %zu bytes", WRONG[i]);
        expect_count(what, trace, trace_length(), counts, WRONG[i], POMURICA_BAD_SIZE, counts);
        expect_count(what, trace, trace_length() - 1, counts, WRONG[i], POMURICA_BAD_SIZE, counts);
    }
}

/* ---------------------------------------------------------------- Lines */

/* The lines of counts, by the C library. */
struct text {
    char letters[POMURICA_LINES_SIZE + 1];
    size_t length;
};

static void put_text(struct text *text, const uint8_t *counts)
{
    text->length = 0;
    for (uint32_t word = 0; word < WORDS; word++) {
        const uint32_t count = pomurica_get_word(counts, word);

        if (count != 0)
            text->length += (size_t)snprintf(text->letters + text->length, sizeof text->letters - text->length,
                                             "%" PRIu32 " %" PRIu32 " %" PRIu32 "\n", word / POMURICA_GROUP_SIZE + 1,
                                             word % POMURICA_GROUP_SIZE, count);
    }
}

/* One call for the lines, and the buffers that it was lent. */
struct call {
    struct lent counts, lines, answer;
    uint32_t number;
};

/* Room and answer hold the same byte all over before. */
static void call_lines(struct call *call, const uint8_t *counts, size_t counts_len, size_t room, size_t answer_len)
{
    static uint8_t before[LENT_MOST];
    const uint8_t *lent_counts = lend(&call->counts, counts, counts_len, room % (MOST_SHIFT + 1));
    uint8_t *lines, *answer;

    memset(before, BYTE, sizeof before);
    lines = lend(&call->lines, before, room, 1);
    answer = lend(&call->answer, before, answer_len, 3);
    call->number = pomurica_count_lines(lent_counts, counts_len, lines, room, answer, answer_len);
    check(take_back(&call->counts), "a guard byte of the counts changed");
    check(take_back(&call->lines), "a guard byte of the lines changed");
    check(take_back(&call->answer), "a guard byte of the answer changed");
    check(is_unchanged(&call->counts), "the counts changed");
}

/* In a room of this size there are the lines, or nothing where they are longer; the rest stays. */
static void expect_lines(const uint8_t *counts, size_t room)
{
    struct text text;
    struct call call;
    uint32_t number;
    size_t written;

    put_text(&text, counts);
    number = room < text.length ? POMURICA_NO_ROOM : POMURICA_DONE;
    written = number == POMURICA_DONE ? text.length : 0;
    call_lines(&call, counts, POMURICA_COUNTS_SIZE, room, POMURICA_ANSWER_SIZE);
    check(call.number == number && pomurica_get_word(bytes_of(&call.answer), POMURICA_ANSWER_NUMBER) == number &&
              pomurica_get_word(bytes_of(&call.answer), POMURICA_ANSWER_VALUE) == written,
          "room of %zu for %zu bytes: number %" PRIu32, room, text.length, call.number);
    check(memcmp(bytes_of(&call.lines), text.letters, written) == 0, "room of %zu: the lines differ", room);
    check(memcmp(bytes_of(&call.lines) + written, call.lines.before + written, room - written) == 0,
          "room of %zu: bytes behind the lines changed", room);
}

static void list_nothing(void)
{
    const uint8_t counts[POMURICA_COUNTS_SIZE] = { 0 };

    expect_lines(counts, 0);
    expect_lines(counts, 1);
    expect_lines(counts, POMURICA_LINES_SIZE);
}

/* Each word alone, with the smallest and the largest count of each number of digits. */
static void list_single(void)
{
    uint8_t counts[POMURICA_COUNTS_SIZE] = { 0 };

    for (size_t word = 0; word < WORDS; word++) {
        for (uint64_t power = 1; power <= UINT32_MAX; power *= 10) {
            const uint64_t largest = 10 * power - 1;

            pomurica_put_word(counts, word, (uint32_t)power);
            expect_lines(counts, POMURICA_LINES_SIZE);
            pomurica_put_word(counts, word, largest < UINT32_MAX ? (uint32_t)largest : UINT32_MAX);
            expect_lines(counts, POMURICA_LINES_SIZE);
        }
        pomurica_put_word(counts, word, 0);
    }
}

/* Every size of the room, up to some bytes more than the lines of the classes have. */
static void list_classes(void)
{
    uint8_t counts[POMURICA_COUNTS_SIZE] = { 0 };
    struct text text;

    add_classes(counts);
    put_text(&text, counts);
    for (size_t room = 0; room <= text.length + POMURICA_ANSWER_SIZE; room++)
        expect_lines(counts, room);
}

/* All 128 counts as large as can be; 4 times 10 lines with a number of one digit, and 22 with one of two. */
static void list_longest(void)
{
    const size_t digits = sizeof "4294967295" - 1;
    const size_t longest = 4 * (10 * (sizeof "1 0 \n" - 1 + digits) + 22 * (sizeof "1 10 \n" - 1 + digits));
    uint8_t counts[POMURICA_COUNTS_SIZE];
    struct text text;

    memset(counts, 0xFF, sizeof counts);
    put_text(&text, counts);
    check(text.length == longest && longest <= POMURICA_LINES_SIZE, "the longest lines have %zu bytes", text.length);
    expect_lines(counts, longest - 1);
    expect_lines(counts, longest);
    expect_lines(counts, longest + 1);
    expect_lines(counts, POMURICA_LINES_SIZE);
    expect_lines(counts, 0);
}

/* Wrong sizes of the counts, of the answer and of both; the room is right, or too small. */
static void list_sizes(void)
{
    static const size_t COUNTS_SIZES[] = { 0, POMURICA_COUNTS_SIZE - 1, POMURICA_COUNTS_SIZE, POMURICA_COUNTS_SIZE + 1 };
    static const size_t ANSWER_SIZES[] = { 0, 4, POMURICA_ANSWER_SIZE - 1, POMURICA_ANSWER_SIZE, POMURICA_ANSWER_SIZE + 1 };
    uint8_t counts[POMURICA_COUNTS_SIZE + 1];
    struct call call;

    memset(counts, BYTE, sizeof counts);
    for (size_t i = 0; i < COUNT(COUNTS_SIZES); i++)
        for (size_t j = 0; j < COUNT(ANSWER_SIZES); j++)
            for (size_t room = 0; room <= POMURICA_LINES_SIZE; room += POMURICA_LINES_SIZE) {
                if (COUNTS_SIZES[i] == POMURICA_COUNTS_SIZE && ANSWER_SIZES[j] == POMURICA_ANSWER_SIZE)
                    continue;
                call_lines(&call, counts, COUNTS_SIZES[i], room, ANSWER_SIZES[j]);
                check(call.number == POMURICA_BAD_SIZE && is_unchanged(&call.lines) && is_unchanged(&call.answer),
                      "counts of %zu bytes, answer of %zu: number %" PRIu32, COUNTS_SIZES[i], ANSWER_SIZES[j], call.number);
            }
}

/* NULL for each buffer with length 0. */
static void run_null(void)
{
    uint8_t counts[POMURICA_COUNTS_SIZE] = { 0 }, lines[POMURICA_LINES_SIZE], answer[POMURICA_ANSWER_SIZE];

    check(pomurica_count(NULL, 0, counts, sizeof counts) == POMURICA_SHORT, "no trace");
    check(pomurica_count(SHORTEST, sizeof SHORTEST, NULL, 0) == POMURICA_BAD_SIZE, "no counts");
    check(pomurica_count(NULL, 0, NULL, 0) == POMURICA_BAD_SIZE, "neither");
    check(pomurica_count_lines(NULL, 0, lines, sizeof lines, answer, sizeof answer) == POMURICA_BAD_SIZE,
          "lines of no counts");
    check(pomurica_count_lines(counts, sizeof counts, lines, sizeof lines, NULL, 0) == POMURICA_BAD_SIZE,
          "lines without an answer");
    check(pomurica_count_lines(counts, sizeof counts, NULL, 0, answer, sizeof answer) == POMURICA_DONE,
          "no room, and no lines");
    counts[0] = 1;
    check(pomurica_count_lines(counts, sizeof counts, NULL, 0, answer, sizeof answer) == POMURICA_NO_ROOM,
          "no room for a line");
    check(pomurica_count_lines(NULL, 0, NULL, 0, NULL, 0) == POMURICA_BAD_SIZE, "nothing at all");
}

/* All that is counted, with traces of one layout. */
static void count_in(bool in_old)
{
    static uint8_t trace[MOST_LENGTH];
    const char *const layout = layout_name(in_old);

    old = in_old;
    record(trace, EVENTS, STEPS, 1);
    group_of(layout, "a trace of every class, counted");
    count_onto_others(trace);
    group_of(layout, "each class in turn almost full");
    count_almost_full(trace);
    group_of(layout, "every count full");
    count_full(trace);
    group_of(layout, "each refusal leaves the counts");
    count_refused(trace);
    group_of(layout, "the longest trace, all of one class");
    count_longest();
    group_of(layout, "counts of other sizes");
    count_sizes(trace);
}

int main(void)
{
    open_edge(POMURICA_LONGEST_TRACE);
    count_in(true);
    count_in(false);
    group("lines of no counts");
    list_nothing();
    group("the line of each count alone");
    list_single();
    group("lines in every room");
    list_classes();
    group("the longest lines");
    list_longest();
    group("lines with buffers of other sizes");
    list_sizes();
    group("NULL with length 0, counts and lines");
    run_null();
    return summary();
}
