/*
 * The worked cases of document 01, "Numbers to hold against it", a to l, and
 * cases of our own for No. 1, No. 2, No. 5, No. 6, No. 7, No. 8, No. 9, No. 10,
 * No. 11, No. 13 and No. 14 of document 02: each is run and printed.  Exit status
 * 1 if one differs.
 *
 *     cc -std=c11 -Wall -Wextra -Werror -O2 -I../host step.c batch.c check.c count.c session.c record.c instruction.c \
 *         test.c -o test && ./test
 */
#include "second.h"
#include "words.h"

#include "pomurica.h"

#include <stdbool.h>
#include <stdio.h>
#include <string.h>

/* Numbers to hold against it: a word that a result names. */
struct named {
    enum place place;
    uint32_t word;
};

/* Numbers to hold against it: a row, also of our own; words of the start not named are 0. */
struct worked_case {
    const char *name;
    uint32_t start[PLACES];
    uint32_t code, a, b;
    uint32_t number, value;
    struct named after[4];
    uint32_t named;
    bool unchanged;
};

/* Numbers to hold against it: a to k; j, A 62, as No. 10 has it.  In k LR_mon is given a word, so that the read shows. */
static const struct worked_case CASES[] = {
    { .name = "a",
      .start = { [SCR] = 1, [CPSR] = 0x13, [PC] = 0x8000, [VBAR_NS] = 0x10000000 },
      .code = CODE_INTERRUPT_CHECK, .a = 4, .value = 0x31218,
      .after = { { CPSR, 0x192 }, { LR_irq, 0x8004 }, { PC, 0x10000018 } }, .named = 3 },
    { .name = "b",
      .start = { [SCR] = 3, [CPSR] = 0x13, [PC] = 0x8000, [VBAR_NS] = 0x10000000 },
      .code = CODE_INTERRUPT_CHECK, .a = 4, .value = 0x31618,
      .after = { { CPSR, 0x1D6 } }, .named = 1 },
    { .name = "c",
      .start = { [SCR] = 3, [CPSR] = 0x93, [PC] = 0x8000 },
      .code = CODE_INTERRUPT_CHECK, .a = 4, .value = 0, .unchanged = true },
    { .name = "d",
      .start = { [SCR] = 1, [HCR] = 0x10, [CPSR] = 0x93, [PC] = 0x8000 },
      .code = CODE_INTERRUPT_CHECK, .a = 4, .value = 0x31A18,
      .after = { { CPSR, 0x1DA }, { ELR_hyp, 0x8000 } }, .named = 2 },
    { .name = "e",
      .start = { [SCR] = 5, [CPSR] = 0x53, [PC] = 0x8000 },
      .code = CODE_INTERRUPT_CHECK, .a = 2, .value = 0x2161C },
    { .name = "e, SCR 0x15",
      .start = { [SCR] = 0x15, [CPSR] = 0x53, [PC] = 0x8000 },
      .code = CODE_INTERRUPT_CHECK, .a = 2, .value = 0, .unchanged = true },
    { .name = "f",
      .start = { [SCR] = 1, [HCR] = 0x120, [CPSR] = 0x13, [PC] = 0x8000 },
      .code = CODE_INTERRUPT_CHECK, .a = 0, .value = 0x41710,
      .after = { { HCR, 0x20 }, { LR_abt, 0x8008 } }, .named = 2 },
    { .name = "g",
      .start = { [SCR] = 1, [CPSR] = 0x30, [PC] = 0xFFFFFFFE },
      .code = CODE_SVC, .value = 0x1308,
      .after = { { LR_svc, 0 }, { CPSR, 0x93 } }, .named = 2 },
    { .name = "h",
      .start = { [SCR] = 1, [CPSR] = 0x16, [PC] = 0x8000 },
      .code = CODE_SMC, .value = 0x1608,
      .after = { { SCR, 0 }, { LR_mon, 0x8004 } }, .named = 2 },
    { .name = "i",
      .start = { [SCR] = 1, [CPSR] = 0x13, [PC] = 0x8000 },
      .code = CODE_BANKED_READ, .a = 31, .number = NO_RIGHT, .unchanged = true },
    { .name = "i, from 0x16",
      .start = { [SCR] = 1, [CPSR] = 0x16, [PC] = 0x8000 },
      .code = CODE_BANKED_READ, .a = 31, .number = DONE, .unchanged = true },
    { .name = "j",
      .start = { [SCR] = 1, [CPSR] = 0x1A, [PC] = 0x8000 },
      .code = CODE_BANKED_READ, .a = 30, .number = DONE, .unchanged = true },
    { .name = "j, A 62",
      .start = { [SCR] = 1, [CPSR] = 0x1A, [PC] = 0x8000 },
      .code = CODE_BANKED_READ, .a = 62, .number = OWN_REGISTER, .unchanged = true },
    { .name = "j, A 7",
      .start = { [SCR] = 1, [CPSR] = 0x1A, [PC] = 0x8000 },
      .code = CODE_BANKED_READ, .a = 7, .number = NO_REGISTER, .unchanged = true },
    { .name = "k",
      .start = { [CPSR] = 0x13, [PC] = 0x8000, [LR_mon] = 0x600DCAFE },
      .code = CODE_BANKED_READ, .a = 28, .number = DONE, .value = 0x600DCAFE,
      .unchanged = true },
};

/* Numbers to hold against it: how many of a to k. */
#define CASE_COUNT (sizeof CASES / sizeof CASES[0])

/* How many cases were run, and how many of them differ. */
static unsigned run, differing;

static void tell(bool right)
{
    printf("%s\n", right ? "" : "  DIFFERS");
    run++;
    differing += !right;
}

/* Numbers to hold against it: a row; prints it, and whether it is as the paper has it. */
static void run_case(const struct worked_case *worked)
{
    uint8_t before[BLOCK_SIZE], block[BLOCK_SIZE], answer[ANSWER_SIZE];
    uint32_t number;
    bool right;

    for (uint32_t place = 0; place < PLACES; place++)
        put_word(before + 4 * place, worked->start[place]);
    memcpy(block, before, sizeof block);
    memset(answer, 0xAA, sizeof answer);

    number = second_step(block, sizeof block, worked->code, worked->a, worked->b,
                         answer, sizeof answer);

    right = number == worked->number && get_word(answer) == worked->number &&
            get_word(answer + 4) == worked->value;
    printf("%-12s  number %u, value 0x%X", worked->name, (unsigned)number,
           (unsigned)get_word(answer + 4));
    for (uint32_t i = 0; i < worked->named; i++) {
        const uint32_t word = get_word(block + 4 * worked->after[i].place);

        printf(", place %u 0x%X", (unsigned)worked->after[i].place, (unsigned)word);
        right = right && word == worked->after[i].word;
    }
    if (worked->unchanged) {
        const bool same = memcmp(before, block, sizeof block) == 0;

        printf(", block %s", same ? "unchanged" : "CHANGED");
        right = right && same;
    }
    tell(right);
}

/* Numbers to hold against it: one of l; prints it, and whether it is as the paper has it. */
static void run_trace(const char *name, const uint8_t *trace, size_t length,
                      uint32_t number, uint32_t place, uint32_t steps)
{
    uint8_t report[REPORT_SIZE];
    uint32_t returned;
    bool right;

    memset(report, 0xAA, sizeof report);
    returned = second_check(trace, length, report, sizeof report);
    right = returned == number && get_word(report) == number &&
            get_word(report + 4) == place && get_word(report + 8) == steps;
    printf("%-12s  %u %u %u", name, (unsigned)get_word(report),
           (unsigned)get_word(report + 4), (unsigned)get_word(report + 8));
    tell(right);
}

/* Numbers to hold against it: l, "The shortest trace, 192 bytes". */
static const uint8_t SHORTEST[192] = {
    [0] = 0xB8, 0x00, 0x01, 0x00,
    [184] = 0x08, 0x00, 0x03, 0x00, 0x00, 0x00, 0x00, 0x00,
};

/* No. 11: the same in the new layout, 196 bytes. */
static const uint8_t SHORTEST_NEW[196] = {
    [0] = 0xBC, 0x00, 0x04, 0x00,
    [188] = 0x08, 0x00, 0x03, 0x00, 0x00, 0x00, 0x00, 0x00,
};

static void run_l(void)
{
    run_trace("l", SHORTEST, 192, DONE, 192, 0);
    run_trace("l, cut", SHORTEST, 191, SHORT, 184, 0);
    run_trace("l, empty", NULL, 0, SHORT, 0, 0);
    run_trace("l, new", SHORTEST_NEW, 196, DONE, 196, 0);
    run_trace("l, new, cut", SHORTEST_NEW, 195, SHORT, 188, 0);
}

/* No. 1: the events of a trace that begins in Non-secure Supervisor, each with what it comes to. */
static const struct {
    uint32_t code, a;
} COUNTED[] = {
    { CODE_INTERRUPT_CHECK, 4 },  /* IRQ: enters IRQ mode, 0x12 */
    { CODE_INTERRUPT_CHECK, 4 },  /* I is set: nothing taken */
    { CODE_HVC, 0 },              /* HCE is 1: enters Hyp mode, 0x1A */
    { CODE_SMC, 0 },              /* SCD is 1: DISABLED, no entry */
    { CODE_SVC, 1 },              /* BAD_EVENT, under its own code */
    { CODE_INTERRUPT_CHECK, 32 }, /* BAD_EVENT: not done, and so no check that took nothing */
    { CODES, 0 },                 /* BAD_EVENT, under 0 */
    { CODE_BANKED_READ, 31 },     /* SP_hyp, from Hyp: OWN_REGISTER */
    { CODE_RETURN, 2 },           /* from Hyp with an A: BAD_EVENT, under its own code */
    { CODE_RETURN, 0 },           /* back to IRQ mode: done, and no entry */
    { CODE_BANKED_READ, 7 },      /* NO_REGISTER */
};

/* No. 1: what they add up to, once and twice. */
static const char ONCE[] = "1 0 1\n1 2 1\n1 3 1\n1 4 1\n1 9 3\n1 10 2\n1 13 2\n2 0 4\n2 4 4\n2 6 1\n2 16 1\n2 17 1\n"
                           "3 18 1\n3 26 1\n4 0 1\n4 3 1\n";
static const char TWICE[] = "1 0 2\n1 2 2\n1 3 2\n1 4 2\n1 9 6\n1 10 4\n1 13 4\n2 0 8\n2 4 8\n2 6 2\n2 16 2\n2 17 2\n"
                            "3 18 2\n3 26 2\n4 0 2\n4 3 2\n";

/* The trace, No. 11: lengths and kinds of the records with a block, and its own length there, by layout. */
static const struct {
    uint32_t start, start_kind;
    uint32_t step, step_kind;
    uint32_t block;
} LAYOUT[LAYOUTS] = {
    [OLD_LAYOUT] = { 184, 1, 200, 2, 176 },
    [NEW_LAYOUT] = { 188, 4, 204, 5, 180 },
};

/* The trace: the lengths of the records, and of the trace of COUNTED, in the new layout, where they are longer. */
enum {
    START_LENGTH = 188,
    STEP_LENGTH = 204,
    END_LENGTH = END_COUNT + 4,
    COUNTED_STEPS = sizeof COUNTED / sizeof COUNTED[0],
    COUNTED_LENGTH = START_LENGTH + COUNTED_STEPS * STEP_LENGTH + END_LENGTH
};

/* The trace: where a Step begins, counted from 0, and behind the last one the End. */
static uint32_t place_of(enum layout layout, uint32_t step)
{
    return LAYOUT[layout].start + step * LAYOUT[layout].step;
}

/* The trace: how long one of n Steps is. */
static uint32_t length_of(enum layout layout, uint32_t n)
{
    return place_of(layout, n) + END_LENGTH;
}

/* The trace: "two-byte length of the whole record, two-byte kind". */
static void put_header(uint8_t *record, uint32_t length, uint32_t kind)
{
    put_word(record, length | kind << 16);
}

/* The trace: a Start, of a block of 180 bytes. */
static void put_start(uint8_t *start, enum layout layout, uint32_t n, const uint8_t *block)
{
    put_header(start, LAYOUT[layout].start, LAYOUT[layout].start_kind);
    put_word(start + START_COUNT, n);
    memcpy(start + START_BLOCK, block, LAYOUT[layout].block);
}

/* The trace: a Step, with a block after it of 180 bytes. */
static void put_step(uint8_t *step, enum layout layout, struct pomurica_event event, struct pomurica_answer answer,
                     const uint8_t *block)
{
    put_header(step, LAYOUT[layout].step, LAYOUT[layout].step_kind);
    put_word(step + STEP_CODE, event.code);
    put_word(step + STEP_A, event.a);
    put_word(step + STEP_B, event.b);
    put_word(step + STEP_ANSWER, answer.number);
    put_word(step + STEP_VALUE, answer.value);
    memcpy(step + STEP_BLOCK, block, LAYOUT[layout].block);
}

/* The trace: an End. */
static void put_end(uint8_t *end, uint32_t n)
{
    put_header(end, END_LENGTH, 3);
    put_word(end + END_COUNT, n);
}

/* The trace: what a direct step answers, which moves the block. */
static struct pomurica_answer answer_of(uint8_t *block, struct pomurica_event event)
{
    uint8_t answer[ANSWER_SIZE];

    second_step(block, BLOCK_SIZE, event.code, event.a, event.b, answer, sizeof answer);
    return (struct pomurica_answer){ get_word(answer), get_word(answer + 4) };
}

/* The trace: the records of COUNTED; HDCR is in those of the new layout alone, and steers none of its Steps. */
static void record_counted(uint8_t *trace, enum layout layout)
{
    uint8_t block[BLOCK_SIZE] = { 0 };

    put_word(block + 4 * SCR, SCR_NS | SCR_SCD | SCR_HCE);
    put_word(block + 4 * CPSR, MODE_SUPERVISOR);
    put_word(block + 4 * HDCR, 0x600DCAFE);
    put_start(trace, layout, COUNTED_STEPS, block);
    for (uint32_t i = 0; i < COUNTED_STEPS; i++) {
        const struct pomurica_event event = { COUNTED[i].code, COUNTED[i].a, 0 };
        const struct pomurica_answer answer = answer_of(block, event);

        put_step(trace + place_of(layout, i), layout, event, answer, block);
    }
    put_end(trace + place_of(layout, COUNTED_STEPS), COUNTED_STEPS);
}

/* No. 1: counts the bytes, and prints the number; right if it is that one. */
static void run_count(const char *name, const uint8_t *trace, size_t length, uint8_t *counts, uint32_t number)
{
    const uint32_t returned = second_count(trace, length, counts, COUNTS_SIZE);

    printf("%-12s  number %u", name, (unsigned)returned);
    tell(returned == number);
}

/* No. 1: prints how long the lines of the counts are; right if they are that text, without room in a byte fewer. */
static void run_lines(const char *name, const uint8_t *counts, const char *text)
{
    const size_t length = strlen(text);
    uint8_t lines[LINES_SIZE], answer[ANSWER_SIZE];
    uint32_t number = second_count_lines(counts, COUNTS_SIZE, lines, length, answer, sizeof answer);
    bool right = number == DONE && get_word(answer) == DONE && get_word(answer + 4) == length &&
                 memcmp(lines, text, length) == 0;

    printf("%-12s  lines of %u bytes", name, (unsigned)get_word(answer + 4));
    if (length > 0) {
        number = second_count_lines(counts, COUNTS_SIZE, lines, length - 1, answer, sizeof answer);
        right = right && number == NO_ROOM && get_word(answer) == NO_ROOM && get_word(answer + 4) == 0;
    }
    tell(right);
}

/* No. 1: counts from nothing to the last that fits; the last count is that of IRQs taken. */
static void run_counts(enum layout layout)
{
    const size_t length = length_of(layout, COUNTED_STEPS);
    uint8_t trace[COUNTED_LENGTH], counts[COUNTS_SIZE] = { 0 };
    uint8_t *last = counts + 4 * (32 * (4 - 1) + 3);

    record_counted(trace, layout);
    run_lines("no counts", counts, "");
    run_count("counts", trace, length, counts, DONE);
    run_lines("counts", counts, ONCE);
    run_count("counts, cut", trace, length - 1, counts, SHORT);
    put_word(last, UINT32_MAX);
    run_count("counts, full", trace, length, counts, FULL);
    put_word(last, 1);
    run_lines("counts stay", counts, ONCE);
    run_count("counts twice", trace, length, counts, DONE);
    run_lines("counts twice", counts, TWICE);
    put_word(last, UINT32_MAX - 1);
    run_count("counts, most", trace, length, counts, DONE);
}

/* No. 2: a list that begins in Non-secure Supervisor, as case a does, with HCE 1. */
static const struct pomurica_event EVENTS[] = {
    { CODE_INTERRUPT_CHECK, LINE_IRQ, 0 },
    { CODE_SVC, 1, 0 },
    { CODE_INTERRUPT_CHECK, LINE_IRQ, 0 },
    { CODE_NOTE, PC, 0x9000 },
    { CODE_HVC, 0, 0 },
    { CODE_BANKED_READ, 31, 0 },
    { CODE_BANKED_READ, 30, 0 },
};

enum {
    LISTED = sizeof EVENTS / sizeof EVENTS[0]
};

/* No. 2: what single steps in order answer. */
static const struct pomurica_answer ANSWERS[LISTED] = {
    { DONE, 0x31218 },   /* case a: enters IRQ mode */
    { BAD_EVENT, 0 },
    { DONE, 0 },         /* I is set by the entry: nothing taken */
    { DONE, 0 },
    { DONE, 0x1A14 },    /* enters Hyp mode, from the PC that was noted */
    { OWN_REGISTER, 0 }, /* SP_hyp, from Hyp */
    { DONE, 0x9004 },    /* ELR_hyp */
};

/* No. 2: the words that they leave in the block. */
static const struct named AFTER[] = { { LR_irq, 0x8004 }, { ELR_hyp, 0x9004 }, { CPSR, 0x1DA }, { PC, 0x14 } };

/* No. 2: the block that the list begins with, in a mode. */
static void put_first_block(uint8_t *block, uint32_t mode)
{
    memset(block, 0, BLOCK_SIZE);
    put_word(block + 4 * SCR, SCR_NS | SCR_HCE);
    put_word(block + 4 * CPSR, mode);
    put_word(block + 4 * PC, 0x8000);
    put_word(block + 4 * VBAR_NS, 0x10000000);
}

/* No. 2: the whole list, from Supervisor. */
static void run_list(void)
{
    struct pomurica_answer answers[LISTED];
    uint8_t block[BLOCK_SIZE];
    uint32_t number;
    bool right;

    put_first_block(block, MODE_SUPERVISOR);
    number = second_batch(EVENTS, LISTED, answers, LISTED, block, sizeof block);
    right = number == DONE && memcmp(answers, ANSWERS, sizeof answers) == 0;
    printf("%-12s  number %u", "batch", (unsigned)number);
    for (size_t i = 0; i < sizeof AFTER / sizeof AFTER[0]; i++) {
        const uint32_t word = get_word(block + 4 * AFTER[i].place);

        printf(", place %u 0x%X", (unsigned)AFTER[i].place, (unsigned)word);
        right = right && word == AFTER[i].word;
    }
    tell(right);
}

/* No. 2: a block without a known mode refuses each event, and the batch is DONE. */
static void run_list_without_mode(void)
{
    struct pomurica_answer answers[LISTED];
    uint8_t before[BLOCK_SIZE], block[BLOCK_SIZE];
    uint32_t number;
    bool right;

    put_first_block(before, 0);
    memcpy(block, before, sizeof block);
    number = second_batch(EVENTS, LISTED, answers, LISTED, block, sizeof block);
    right = number == DONE && memcmp(before, block, sizeof block) == 0;
    for (size_t i = 0; i < LISTED; i++)
        right = right && answers[i].number == BAD_MODE && answers[i].value == 0;
    printf("%-12s  number %u, first answer %u", "batch, mode", (unsigned)number, (unsigned)answers[0].number);
    tell(right);
}

/* No. 2: lengths with which no answer and no byte changes. */
static void run_lengths(const char *name, size_t events_len, size_t answers_len, size_t block_len, uint32_t number)
{
    struct pomurica_answer before[LISTED], answers[LISTED];
    uint8_t first[BLOCK_SIZE + 1] = { 0 }, block[BLOCK_SIZE + 1];
    uint32_t returned;

    memset(before, 0xAA, sizeof before);
    memcpy(answers, before, sizeof answers);
    put_first_block(first, MODE_SUPERVISOR);
    memcpy(block, first, sizeof block);
    returned = second_batch(events_len == 0 ? NULL : EVENTS, events_len, answers_len == 0 ? NULL : answers, answers_len,
                            block, block_len);
    printf("%-12s  number %u", name, (unsigned)returned);
    tell(returned == number && memcmp(answers, before, sizeof answers) == 0 && memcmp(block, first, sizeof block) == 0);
}

/* No. 2: "an empty list is otherwise DONE". */
static void run_batches(void)
{
    run_list();
    run_list_without_mode();
    run_lengths("batch, none", 0, 0, BLOCK_SIZE, DONE);
    run_lengths("batch, fewer", LISTED, LISTED - 1, BLOCK_SIZE, BAD_SIZE);
    run_lengths("batch, more", LISTED - 1, LISTED, BLOCK_SIZE, BAD_SIZE);
    run_lengths("batch, 176", LISTED, LISTED, OLD_BLOCK_SIZE, BAD_SIZE);
    run_lengths("batch, 179", LISTED, LISTED, BLOCK_SIZE - 1, BAD_SIZE);
    run_lengths("batch, 181", LISTED, LISTED, BLOCK_SIZE + 1, BAD_SIZE);
    run_lengths("none, 176", 0, 0, OLD_BLOCK_SIZE, BAD_SIZE);
}

/* No. 5: HCR with each virtual source set, and with each override bit 1. */
#define SOURCES (HCR_VA | HCR_VF | HCR_VI)
#define OVERRIDES (HCR_AMO | HCR_FMO | HCR_IMO)

/* No. 5: with TGE 1 and the override bit 0, or as said; the entries are those of decisions.py. */
static const struct worked_case TGE_CASES[] = {
    { .name = "IRQ, User", /* entry 87: "now takes an IRQ" */
      .start = { [SCR] = SCR_NS, [HCR] = HCR_TGE, [CPSR] = 0x90, [PC] = 0x8000, [HVBAR] = 0x20000000 },
      .code = CODE_INTERRUPT_CHECK, .a = LINE_IRQ, .value = 0x31A18,
      .after = { { CPSR, 0x1DA }, { SPSR_hyp, 0x90 }, { ELR_hyp, 0x8000 }, { HCR, HCR_TGE } }, .named = 4 },
    { .name = "FIQ, User", /* entry 83 */
      .start = { [SCR] = SCR_NS, [HCR] = HCR_TGE, [CPSR] = 0x50, [PC] = 0x8000, [HVBAR] = 0x20000000 },
      .code = CODE_INTERRUPT_CHECK, .a = LINE_FIQ, .value = 0x21A1C,
      .after = { { CPSR, 0x1DA }, { ELR_hyp, 0x8000 }, { PC, 0x2000001C }, { HCR, HCR_TGE } }, .named = 4 },
    { .name = "SError, AW", /* entry 87; from another mode at 0x14 */
      .start = { [SCR] = SCR_NS | SCR_AW, [HCR] = HCR_TGE, [CPSR] = 0x110, [PC] = 0x8000 },
      .code = CODE_INTERRUPT_CHECK, .a = LINE_SERROR, .value = 0x11A14,
      .after = { { CPSR, 0x1DA }, { ELR_hyp, 0x8000 }, { HCR, HCR_TGE } }, .named = 3 },
    { .name = "IRQ, R 1", /* entry 119 */
      .start = { [SCR] = SCR_NS | SCR_IRQ, [HCR] = HCR_TGE, [CPSR] = 0x90, [PC] = 0x8000 },
      .code = CODE_INTERRUPT_CHECK, .a = LINE_IRQ, .value = 0x31618,
      .after = { { CPSR, 0x1D6 }, { LR_mon, 0x8004 }, { SCR, SCR_NS | SCR_IRQ }, { HCR, HCR_TGE } }, .named = 4 },
    { .name = "IRQ, Hyp", /* entry 183 */
      .start = { [SCR] = SCR_NS | SCR_IRQ, [HCR] = HCR_TGE, [CPSR] = 0x9A, [PC] = 0x8000 },
      .code = CODE_INTERRUPT_CHECK, .a = LINE_IRQ, .value = 0x31618,
      .after = { { CPSR, 0x1D6 }, { SPSR_mon, 0x9A }, { LR_mon, 0x8004 }, { HCR, HCR_TGE } }, .named = 4 },
    { .name = "FIQ, Hyp, FW", /* entry 183 */
      .start = { [SCR] = SCR_NS | SCR_FIQ | SCR_FW, [HCR] = HCR_TGE, [CPSR] = 0x5A, [PC] = 0x8000 },
      .code = CODE_INTERRUPT_CHECK, .a = LINE_FIQ, .value = 0x2161C,
      .after = { { CPSR, 0x1D6 }, { SPSR_mon, 0x5A }, { HCR, HCR_TGE } }, .named = 3 },
    { .name = "Hyp, R 0", /* entry 151: obeyed with M 0 and with M 1 */
      .start = { [SCR] = SCR_NS, [HCR] = HCR_TGE, [CPSR] = 0x9A, [PC] = 0x8000 },
      .code = CODE_INTERRUPT_CHECK, .a = LINE_IRQ, .value = 0, .unchanged = true },
    { .name = "Secure", /* entry 55: "Secure | any | any | any | obeyed" */
      .start = { [SCR] = SCR_IRQ, [HCR] = HCR_TGE, [CPSR] = 0x90, [PC] = 0x8000 },
      .code = CODE_INTERRUPT_CHECK, .a = LINE_IRQ, .value = 0, .unchanged = true },
    { .name = "Monitor, NS", /* entry 55: Secure, whatever NS says */
      .start = { [SCR] = SCR_NS | SCR_IRQ, [HCR] = HCR_TGE, [CPSR] = 0x96, [PC] = 0x8000 },
      .code = CODE_INTERRUPT_CHECK, .a = LINE_IRQ, .value = 0, .unchanged = true },
    { .name = "virtual IRQ", /* "Virtual exceptions stay off under TGE" */
      .start = { [SCR] = SCR_NS, [HCR] = HCR_TGE | HCR_VI, [CPSR] = 0x10, [PC] = 0x8000 },
      .code = CODE_INTERRUPT_CHECK, .value = 0, .unchanged = true },
    { .name = "virtual, M 0",
      .start = { [SCR] = SCR_NS, [HCR] = HCR_TGE | SOURCES, [CPSR] = 0x10, [PC] = 0x8000 },
      .code = CODE_INTERRUPT_CHECK, .value = 0, .unchanged = true },
    { .name = "virtual, M 1",
      .start = { [SCR] = SCR_NS, [HCR] = HCR_TGE | SOURCES | OVERRIDES, [CPSR] = 0x10, [PC] = 0x8000 },
      .code = CODE_INTERRUPT_CHECK, .value = 0, .unchanged = true },
    { .name = "TGE 0, M 0", /* a virtual one goes by the stored bit */
      .start = { [SCR] = SCR_NS, [HCR] = SOURCES, [CPSR] = 0x10, [PC] = 0x8000 },
      .code = CODE_INTERRUPT_CHECK, .value = 0, .unchanged = true },
    { .name = "IRQ, TGE 0", /* entry 71: as document 01 has it */
      .start = { [SCR] = SCR_NS, [CPSR] = 0x90, [PC] = 0x8000 },
      .code = CODE_INTERRUPT_CHECK, .a = LINE_IRQ, .value = 0, .unchanged = true },
};

/* No. 5: how many of our own. */
#define TGE_CASE_COUNT (sizeof TGE_CASES / sizeof TGE_CASES[0])

/* The trace: one Step. */
enum {
    ONE_LENGTH = START_LENGTH + STEP_LENGTH + END_LENGTH
};

/* The trace: one Step from a block of 180 bytes, with an answer and a block after it. */
static void record_one(uint8_t *trace, enum layout layout, const uint8_t *before, struct pomurica_event event,
                       struct pomurica_answer answer, const uint8_t *after)
{
    put_start(trace, layout, 1, before);
    put_step(trace + place_of(layout, 0), layout, event, answer, after);
    put_end(trace + place_of(layout, 1), 1);
}

/* Numbers to hold against it: the block and the event of a case. */
static void put_case_block(uint8_t *block, const struct worked_case *worked)
{
    for (uint32_t place = 0; place < PLACES; place++)
        put_word(block + 4 * place, worked->start[place]);
}

static struct pomurica_event event_of(const struct worked_case *worked)
{
    return (struct pomurica_event){ worked->code, worked->a, worked->b };
}

/* The trace: a case as a trace of one Step, which says this number, with the value 0 and a block that stayed. */
static void record_stayed(uint8_t *trace, enum layout layout, const struct worked_case *worked, uint32_t number)
{
    uint8_t block[BLOCK_SIZE];

    put_case_block(block, worked);
    record_one(trace, layout, block, event_of(worked), (struct pomurica_answer){ number, 0 }, block);
}

/* The trace: the same with what the rules give, where some bits of SCR are turned round, and turned back behind the step. */
static void record_turned(uint8_t *trace, enum layout layout, const struct worked_case *worked, uint32_t scr_bits)
{
    uint8_t before[BLOCK_SIZE], after[BLOCK_SIZE];
    uint8_t *scr = after + 4 * SCR;
    struct pomurica_answer answer;

    put_case_block(before, worked);
    memcpy(after, before, sizeof after);
    put_word(scr, get_word(scr) ^ scr_bits);
    answer = answer_of(after, event_of(worked));
    put_word(scr, get_word(scr) ^ scr_bits);
    record_one(trace, layout, before, event_of(worked), answer, after);
}

/* The trace: one of one Step, which is right, or WRONG_STEP. */
static void run_one(const char *name, const uint8_t *trace, enum layout layout, uint32_t number)
{
    const uint32_t length = length_of(layout, 1);

    if (number == DONE)
        run_trace(name, trace, length, DONE, length, 1);
    else
        run_trace(name, trace, length, number, place_of(layout, 0), 0);
}

/* No. 5: "old traces that show the former answer are now WRONG_STEP"; the former answer to the first case is nothing taken. */
static void run_tge_traces(enum layout layout)
{
    uint8_t trace[ONE_LENGTH];

    record_stayed(trace, layout, &TGE_CASES[0], DONE);
    run_one("trace before", trace, layout, WRONG_STEP);
    record_turned(trace, layout, &TGE_CASES[0], 0);
    run_one("trace after", trace, layout, DONE);
}

static void run_tge(void)
{
    for (size_t i = 0; i < TGE_CASE_COUNT; i++)
        run_case(&TGE_CASES[i]);
    run_tge_traces(OLD_LAYOUT);
    run_tge_traces(NEW_LAYOUT);
}

/* No. 6: whether a report is "the number, place and Steps" that are due. */
static bool is_report(const uint8_t *report, uint32_t number, uint32_t place, uint32_t steps)
{
    return get_word(report) == number && get_word(report + 4) == place && get_word(report + 8) == steps;
}

/* No. 6: whether closing gives this number, place and Steps, "closing again" the same, and a feeding between them CLOSED. */
static bool closes_with(struct pomurica_session *session, uint32_t number, uint32_t place, uint32_t steps)
{
    uint8_t report[REPORT_SIZE], again[REPORT_SIZE];
    struct pomurica_session closed;
    bool right;

    right = second_close(session, report, sizeof report) == number && is_report(report, number, place, steps);
    closed = *session;
    right = right && second_feed(session, NULL, 0) == CLOSED && second_feed(session, SHORTEST, sizeof SHORTEST) == CLOSED;
    right = right && second_close(session, again, sizeof again) == number && is_report(again, number, place, steps);
    return right && memcmp(session, &closed, sizeof closed) == 0;
}

/* No. 6: "However the bytes were cut": l, cut in two in every way, with an empty run before, between and behind. */
static void run_cuts(const uint8_t *shortest, uint32_t length)
{
    unsigned cuts = 0;

    for (uint32_t cut = 0; cut <= length; cut++) {
        struct pomurica_session session;

        memset(&session, 0xAA, sizeof session);
        if (second_open(&session) == DONE && second_feed(&session, NULL, 0) == DONE &&
            second_feed(&session, shortest, cut) == DONE && second_feed(&session, NULL, 0) == DONE &&
            second_feed(&session, shortest + cut, length - cut) == DONE &&
            second_feed(&session, NULL, 0) == DONE && closes_with(&session, DONE, length, 0))
            cuts++;
    }
    printf("%-12s  in %u ways", "l in two", cuts);
    tell(cuts == length + 1);
}

/* No. 6: feeds a byte at a time; gives how many came before this fault was known, or SIZE_MAX if it did not stay. */
static size_t feed_singly(struct pomurica_session *session, const uint8_t *trace, size_t length, uint32_t fault)
{
    size_t unknown = 0;

    while (unknown < length && second_feed(session, trace + unknown, 1) == DONE)
        unknown++;
    for (size_t i = unknown; i < length; i++) {
        if (second_feed(session, trace + i, 1) != fault)
            return SIZE_MAX;
    }
    return unknown;
}

/* No. 6: how many bytes come before a fault is known, all of them where none is; they are fed singly, and in one run. */
static void run_known(const char *name, const uint8_t *trace, size_t length, size_t unknown,
                      uint32_t number, uint32_t place, uint32_t steps)
{
    const uint32_t fault = unknown == length ? DONE : number;
    struct pomurica_session singly, at_once;
    bool right;

    second_open(&singly);
    second_open(&at_once);
    right = feed_singly(&singly, trace, length, fault) == unknown && second_feed(&at_once, trace, length) == fault &&
            memcmp(&singly, &at_once, sizeof singly) == 0;
    right = right && closes_with(&singly, number, place, steps) && closes_with(&at_once, number, place, steps);
    printf("%-12s  %u %u %u, behind %u bytes", name, (unsigned)number, (unsigned)place, (unsigned)steps, (unsigned)unknown);
    tell(right);
}

/* No. 6: COUNTED with one byte changed; the fault is known with this byte of the record at this place. */
static void run_changed(enum layout layout, const char *name, size_t changed, uint8_t byte, size_t known,
                        uint32_t number, uint32_t place, uint32_t steps)
{
    uint8_t trace[COUNTED_LENGTH];

    record_counted(trace, layout);
    trace[changed] = byte;
    run_known(name, trace, length_of(layout, COUNTED_STEPS), place + known - 1, number, place, steps);
}

/* No. 6: "known with a record's fourth byte, TRAILING with its first byte, the others with the record's last". */
static void run_faults(enum layout layout)
{
    const uint32_t start = LAYOUT[layout].start, step = LAYOUT[layout].step, length = length_of(layout, COUNTED_STEPS);
    const uint32_t last = place_of(layout, COUNTED_STEPS - 1), end = place_of(layout, COUNTED_STEPS);
    uint8_t trace[2 * COUNTED_LENGTH];

    run_changed(layout, "length", 0, 0xB9, 4, BAD_RECORD, 0, 0);
    run_changed(layout, "kind", 3, 1, 4, BAD_RECORD, 0, 0);
    run_changed(layout, "Step's kind", last + 2, 3, 4, BAD_RECORD, last, COUNTED_STEPS - 1);
    run_changed(layout, "End's length", end, 9, 4, BAD_RECORD, end, COUNTED_STEPS);
    run_changed(layout, "n above", START_COUNT + 2, 1, start, BAD_COUNT, 0, 0);
    run_changed(layout, "End's n", end + END_COUNT, 0, END_LENGTH, BAD_COUNT, end, COUNTED_STEPS);
    run_changed(layout, "wrong value", last + STEP_VALUE, 1, step, WRONG_STEP, last, COUNTED_STEPS - 1);
    run_changed(layout, "wrong word", end - 1, 1, step, WRONG_STEP, last, COUNTED_STEPS - 1);
    record_counted(trace, layout);
    record_counted(trace + length, layout);
    run_known("once more", trace, 2 * length, length, TRAILING, length, COUNTED_STEPS);
}

/* No. 6: "SHORT is given only at closing", whatever the part that is there says. */
static void run_short(enum layout layout)
{
    const uint32_t last = place_of(layout, COUNTED_STEPS - 1), end = place_of(layout, COUNTED_STEPS);
    const uint32_t start = LAYOUT[layout].start, length = length_of(layout, COUNTED_STEPS);
    uint8_t trace[COUNTED_LENGTH];

    record_counted(trace, layout);
    run_known("whole", trace, length, length, DONE, length, COUNTED_STEPS);
    run_known("no bytes", NULL, 0, 0, SHORT, 0, 0);
    run_known("cut Start", trace, start - 1, start - 1, SHORT, 0, 0);
    run_known("no Step", trace, start, start, SHORT, start, 0);
    run_known("no End", trace, end, end, SHORT, end, COUNTED_STEPS);
    run_known("no last byte", trace, length - 1, length - 1, SHORT, end, COUNTED_STEPS);
    trace[last + STEP_VALUE] = 1;
    run_known("cut, wrong", trace, end - 1, end - 1, SHORT, last, COUNTED_STEPS - 1);
    trace[0] = 0;
    run_known("3 bytes", trace, 3, 3, SHORT, 0, 0);
}

/* No. 6: so many bytes of COUNTED, and one more 0 behind it, leave a session that is this one. */
static void run_kept(enum layout layout, const char *name, size_t fed, const struct pomurica_session *kept)
{
    uint8_t trace[COUNTED_LENGTH + 1] = { 0 };
    struct pomurica_session session;

    record_counted(trace, layout);
    second_open(&session);
    second_feed(&session, trace, fed);
    printf("%-12s  %u held of the record at %u", name, (unsigned)session.held, (unsigned)session.place);
    tell(memcmp(&session, kept, sizeof session) == 0);
}

/* No. 6: "no more than the last block and one unfinished record", and neither with a fault; No. 11: of its layout. */
static void run_keeping(enum layout layout)
{
    const uint32_t next = layout == OLD_LAYOUT ? STAGE_OLD_NEXT : STAGE_NEXT;
    const uint32_t last = place_of(layout, COUNTED_STEPS - 1), end = place_of(layout, COUNTED_STEPS);
    const uint32_t start = LAYOUT[layout].start, block = LAYOUT[layout].block;
    const uint32_t length = length_of(layout, COUNTED_STEPS);
    struct pomurica_session kept = { .stage = STAGE_START, .held = start - 1 };
    uint8_t trace[COUNTED_LENGTH];

    record_counted(trace, layout);
    memcpy(kept.unfinished, trace, kept.held);
    run_kept(layout, "in Start", kept.held, &kept);

    kept = (struct pomurica_session){ .stage = next, .count = COUNTED_STEPS, .place = start };
    memcpy(kept.block, trace + START_BLOCK, block);
    run_kept(layout, "Start", start, &kept);

    kept.steps = COUNTED_STEPS - 1;
    kept.place = last;
    kept.held = HEADER_SIZE;
    memcpy(kept.block, trace + last - block, block);
    memcpy(kept.unfinished, trace + last, HEADER_SIZE);
    run_kept(layout, "in Step", last + HEADER_SIZE, &kept);

    kept.held = LAYOUT[layout].step - 1;
    memcpy(kept.unfinished, trace + last, kept.held);
    run_kept(layout, "all but one", end - 1, &kept);

    kept = (struct pomurica_session){ STAGE_OVER, COUNTED_STEPS, COUNTED_STEPS, length, 0, DONE, 0, { 0 }, { 0 } };
    memcpy(kept.block, trace + end - block, block);
    run_kept(layout, "End", length, &kept);

    kept.fault = TRAILING;
    memset(kept.block, 0, sizeof kept.block);
    run_kept(layout, "one more", length + 1, &kept);
}

/* No. 6: a report of another size changes nothing, and the session is as open as it was. */
static void run_report_sizes(void)
{
    static const size_t SIZES[] = { 0, REPORT_SIZE - 1, REPORT_SIZE + 1 };
    uint8_t report[REPORT_SIZE + 1], before[REPORT_SIZE + 1];
    struct pomurica_session session, half;
    bool right = true;

    memset(report, 0xAA, sizeof report);
    memcpy(before, report, sizeof before);
    second_open(&session);
    second_feed(&session, SHORTEST, 100);
    half = session;
    for (size_t i = 0; i < sizeof SIZES / sizeof SIZES[0]; i++)
        right = right && second_close(&session, report, SIZES[i]) == BAD_SIZE;
    right = right && memcmp(&session, &half, sizeof half) == 0 && memcmp(report, before, sizeof before) == 0;
    right = right && second_feed(&session, SHORTEST + 100, sizeof SHORTEST - 100) == DONE;
    printf("%-12s  still open", "report size");
    tell(right && closes_with(&session, DONE, 192, 0));
}

static void run_sessions(enum layout layout)
{
    run_faults(layout);
    run_short(layout);
    run_keeping(layout);
}

/* No. 7: one Step, from a block without a known mode, for an event without a known code: every byte by hand. */
static const struct pomurica_event UNKNOWN = { 0x04030201, 0x08070605, 0x0C0B0A09 };
static const uint8_t ONE_STEP[ONE_LENGTH] = {
    [0] = 0xBC, 0x00, 0x04, 0x00, 0x01, 0x00, 0x00, 0x00, /* n */
    [8] = 0x11, [187] = 0x22,                             /* the block's first byte and its last */
    [188] = 0xCC, 0x00, 0x05, 0x00, 0x01, 0x02, 0x03, 0x04, 0x05, 0x06, 0x07, 0x08, 0x09, 0x0A, 0x0B, 0x0C,
    [204] = 0x02, 0x00, 0x00, 0x00, /* BAD_MODE, and the value 0 */
    [212] = 0x11, [391] = 0x22,
    [392] = 0x08, 0x00, 0x03, 0x00, 0x01, 0x00, 0x00, 0x00,
};

enum {
    LISTED_LENGTH = START_LENGTH + LISTED * STEP_LENGTH + END_LENGTH,
    MOST_LISTED = 65535,
    MOST_LENGTH = START_LENGTH + MOST_LISTED * STEP_LENGTH + END_LENGTH,
    ROOM = LISTED_LENGTH + 1000, /* bytes of a buffer, more than either list needs */
    OLD_BYTE = 0xAA              /* what they are before a recording */
};

/* No. 7: whether the bytes are as they were before the recording. */
static bool are_old(const uint8_t *bytes, size_t length)
{
    for (size_t i = 0; i < length; i++) {
        if (bytes[i] != OLD_BYTE)
            return false;
    }
    return true;
}

/* No. 7: "accepted by the checker with Steps equal to n", and the place is the length. */
static bool is_accepted(const uint8_t *trace, size_t length, uint32_t n)
{
    uint8_t report[REPORT_SIZE];

    return second_check(trace, length, report, sizeof report) == DONE && is_report(report, DONE, (uint32_t)length, n);
}

/* No. 7: a list from a block, into a buffer with such room behind the offset, becomes the trace; bytes around it stay. */
static void run_written(const char *name, const uint8_t *block, const struct pomurica_event *events, uint32_t n,
                        size_t offset, size_t room, const uint8_t *trace)
{
    const size_t length = START_LENGTH + n * STEP_LENGTH + END_LENGTH;
    uint8_t before[BLOCK_SIZE], buffer[ROOM];
    uint32_t number;
    bool right;

    memset(buffer, OLD_BYTE, sizeof buffer);
    memcpy(before, block, sizeof before);
    number = second_record(block, BLOCK_SIZE, events, n, buffer, offset + room, offset);
    right = number == DONE && memcmp(buffer + offset, trace, length) == 0 && is_accepted(buffer + offset, length, n);
    right = right && are_old(buffer, offset) && are_old(buffer + offset + length, sizeof buffer - offset - length);
    printf("%-12s  number %u, %u bytes from %u", name, (unsigned)number, (unsigned)length, (unsigned)offset);
    tell(right && memcmp(block, before, sizeof before) == 0);
}

/* No. 7: whether the Steps show the list of No. 2, and what single steps answer; the block after the last is theirs. */
static bool shows_list(const uint8_t *trace)
{
    const uint8_t *step = trace + START_LENGTH;
    bool right = true;

    for (size_t i = 0; i < LISTED; i++, step += STEP_LENGTH) {
        right = right && get_word(step + STEP_CODE) == EVENTS[i].code && get_word(step + STEP_A) == EVENTS[i].a &&
                get_word(step + STEP_B) == EVENTS[i].b && get_word(step + STEP_ANSWER) == ANSWERS[i].number &&
                get_word(step + STEP_VALUE) == ANSWERS[i].value;
    }
    for (size_t i = 0; i < sizeof AFTER / sizeof AFTER[0]; i++)
        right = right && get_word(step - BLOCK_SIZE + 4 * AFTER[i].place) == AFTER[i].word;
    return right;
}

/* No. 7: the list of No. 2, in a buffer of its trace's size, and in the middle of larger ones. */
static void run_listed(void)
{
    uint8_t block[BLOCK_SIZE], trace[LISTED_LENGTH];
    uint32_t number;

    put_first_block(block, MODE_SUPERVISOR);
    number = second_record(block, sizeof block, EVENTS, LISTED, trace, sizeof trace, 0);
    printf("%-12s  number %u, answers of the batch", "record", (unsigned)number);
    tell(number == DONE && memcmp(trace + START_BLOCK, block, sizeof block) == 0 && shows_list(trace) &&
         is_accepted(trace, sizeof trace, LISTED));
    run_written("from 1", block, EVENTS, LISTED, 1, LISTED_LENGTH, trace);
    run_written("from 0, room", block, EVENTS, LISTED, 0, LISTED_LENGTH + 1, trace);
    run_written("middle", block, EVENTS, LISTED, 333, LISTED_LENGTH + 500, trace);
}

/* No. 7: 65,535 events and one more, all of code 0, which no rule knows; a buffer in which the trace of them all would fit. */
static struct pomurica_event many[MOST_LISTED + 1];
static uint8_t vast[MOST_LENGTH + STEP_LENGTH];

/* No. 7: "A refusal changes no byte." */
static void run_refused(const char *name, size_t block_len, size_t events_len, size_t buffer_len, size_t offset,
                        uint32_t number)
{
    uint8_t block[BLOCK_SIZE + 1] = { 0 }, before[BLOCK_SIZE + 1] = { 0 };
    uint32_t returned;

    put_first_block(block, MODE_SUPERVISOR);
    put_first_block(before, MODE_SUPERVISOR);
    memset(vast, OLD_BYTE, sizeof vast);
    returned = second_record(block, block_len, many, events_len, buffer_len == 0 ? NULL : vast, buffer_len, offset);
    printf("%-12s  number %u", name, (unsigned)returned);
    tell(returned == number && are_old(vast, sizeof vast) && memcmp(block, before, sizeof block) == 0);
}

/* No. 7: "Checks in order": the first that refuses gives the number, also where one behind it would refuse. */
static void run_refusals(void)
{
    run_refused("block 176", OLD_BLOCK_SIZE, 0, ROOM, 0, BAD_SIZE);
    run_refused("block 179", BLOCK_SIZE - 1, 0, ROOM, 0, BAD_SIZE);
    run_refused("block 181", BLOCK_SIZE + 1, 0, ROOM, 0, BAD_SIZE);
    run_refused("all three", OLD_BLOCK_SIZE, MOST_LISTED + 1, 0, 1, BAD_SIZE);
    run_refused("65536", BLOCK_SIZE, MOST_LISTED + 1, sizeof vast, 0, BAD_COUNT);
    run_refused("65536, none", BLOCK_SIZE, MOST_LISTED + 1, 0, 1, BAD_COUNT);
    run_refused("65535, short", BLOCK_SIZE, MOST_LISTED, MOST_LENGTH - 1, 0, NO_ROOM);
    run_refused("no buffer", BLOCK_SIZE, 0, 0, 0, NO_ROOM);
    run_refused("195 bytes", BLOCK_SIZE, 0, 195, 0, NO_ROOM);
    run_refused("195 behind", BLOCK_SIZE, 0, 196, 1, NO_ROOM);
    run_refused("399 behind", BLOCK_SIZE, 1, 500 + 399, 500, NO_ROOM);
    run_refused("at the end", BLOCK_SIZE, 0, ROOM, ROOM, NO_ROOM);
    run_refused("past the end", BLOCK_SIZE, 0, ROOM, ROOM + 1, NO_ROOM);
    run_refused("sum wraps", BLOCK_SIZE, 0, ROOM, SIZE_MAX - 195, NO_ROOM);
    run_refused("last offset", BLOCK_SIZE, 0, ROOM, SIZE_MAX, NO_ROOM);
}

/* No. 7: "over 65,535 events" are too many; 65,535 are not. */
static void run_most(void)
{
    uint8_t block[BLOCK_SIZE];
    uint32_t number;

    put_first_block(block, MODE_SUPERVISOR);
    memset(vast, OLD_BYTE, sizeof vast);
    number = second_record(block, sizeof block, many, MOST_LISTED, vast, MOST_LENGTH + 1, 1);
    printf("%-12s  number %u, %u bytes from 1", "65535", (unsigned)number, (unsigned)MOST_LENGTH);
    tell(number == DONE && is_accepted(vast + 1, MOST_LENGTH, MOST_LISTED) && are_old(vast, 1) &&
         are_old(vast + 1 + MOST_LENGTH, sizeof vast - 1 - MOST_LENGTH));
}

/* No. 7: the shortest trace, in the new layout, is of an empty list. */
static void run_recordings(void)
{
    run_written("record, none", SHORTEST_NEW + START_BLOCK, NULL, 0, 0, sizeof SHORTEST_NEW, SHORTEST_NEW);
    run_written("none, from 7", SHORTEST_NEW + START_BLOCK, NULL, 0, 7, ROOM - 7, SHORTEST_NEW);
    run_written("record, one", ONE_STEP + START_BLOCK, &UNKNOWN, 1, 0, sizeof ONE_STEP, ONE_STEP);
    run_listed();
    run_refusals();
    run_most();
}

/* No. 8: the calls by hand, where words move or a paper's sentence decides; the table below has the others. */
static const struct worked_case CALL_CASES[] = {
    { .name = "SMC, SCD 0", /* taken, as document 01 has it; HCE plays no part */
      .start = { [SCR] = SCR_NS, [CPSR] = 0x13, [PC] = 0x8000, [MVBAR] = 0x30000000 },
      .code = CODE_SMC, .value = 0x1608,
      .after = { { CPSR, 0x1D6 }, { SPSR_mon, 0x13 }, { LR_mon, 0x8004 }, { PC, 0x30000008 } }, .named = 4 },
    { .name = "SMC, SCD 1",
      .start = { [SCR] = SCR_NS | SCR_SCD, [CPSR] = 0x13, [PC] = 0x8000, [MVBAR] = 0x30000000 },
      .code = CODE_SMC, .number = DISABLED, .unchanged = true },
    { .name = "SMC, trapped", /* "since Arm tests the trap first" */
      .start = { [SCR] = SCR_NS | SCR_SCD, [HCR] = HCR_TSC, [CPSR] = 0x13, [PC] = 0x8000, [HVBAR] = 0x20000000 },
      .code = CODE_SMC, .value = 0x1A14,
      .after = { { CPSR, 0x1DA }, { SPSR_hyp, 0x13 }, { ELR_hyp, 0x8000 }, { PC, 0x20000014 } }, .named = 4 },
    { .name = "SMC, Monitor", /* Secure, whatever NS says: no trap, and "we choose DISABLED there as well"; NS stays */
      .start = { [SCR] = SCR_NS | SCR_SCD, [HCR] = HCR_TSC, [CPSR] = 0x16, [PC] = 0x8000 },
      .code = CODE_SMC, .number = DISABLED, .unchanged = true },
    { .name = "h, bits 6, 8", /* the bits beside SCD disable no SMC */
      .start = { [SCR] = SCR_NS | 0x40 | SCR_HCE, [CPSR] = 0x16, [PC] = 0x8000 },
      .code = CODE_SMC, .value = 0x1608,
      .after = { { SCR, 0x40 | SCR_HCE }, { LR_mon, 0x8004 } }, .named = 2 },
    { .name = "SMC, A 1", /* BAD_EVENT is the lowest */
      .start = { [SCR] = SCR_NS | SCR_SCD, [CPSR] = 0x13, [PC] = 0x8000 },
      .code = CODE_SMC, .a = 1, .number = BAD_EVENT, .unchanged = true },
    { .name = "HVC, HCE 1", /* SCD plays no part */
      .start = { [SCR] = SCR_NS | SCR_SCD | SCR_HCE, [CPSR] = 0x13, [PC] = 0x8000, [HVBAR] = 0x20000000 },
      .code = CODE_HVC, .value = 0x1A14,
      .after = { { CPSR, 0x1DA }, { SPSR_hyp, 0x13 }, { ELR_hyp, 0x8004 }, { PC, 0x20000014 } }, .named = 4 },
    { .name = "HVC, HCE 0",
      .start = { [SCR] = SCR_NS, [CPSR] = 0x13, [PC] = 0x8000, [HVBAR] = 0x20000000 },
      .code = CODE_HVC, .number = DISABLED, .unchanged = true },
    { .name = "HVC, Hyp", /* "we choose DISABLED there too" */
      .start = { [SCR] = SCR_NS, [CPSR] = 0x1A, [PC] = 0x8000, [HVBAR] = 0x20000000 },
      .code = CODE_HVC, .number = DISABLED, .unchanged = true },
    { .name = "Hyp, HCE 1", /* from Hyp itself at its own offset */
      .start = { [SCR] = SCR_NS | SCR_HCE, [CPSR] = 0x1A, [PC] = 0x8000, [HVBAR] = 0x20000000 },
      .code = CODE_HVC, .value = 0x1A08,
      .after = { { CPSR, 0x1DA }, { SPSR_hyp, 0x1A }, { ELR_hyp, 0x8004 }, { PC, 0x20000008 } }, .named = 4 },
    { .name = "bits 7 and 9", /* the bits beside HCE enable no HVC */
      .start = { [SCR] = SCR_NS | SCR_SCD | 0x200, [CPSR] = 0x13, [PC] = 0x8000 },
      .code = CODE_HVC, .number = DISABLED, .unchanged = true },
    { .name = "HVC, A 1",
      .start = { [SCR] = SCR_NS, [CPSR] = 0x13, [PC] = 0x8000 },
      .code = CODE_HVC, .a = 1, .number = BAD_EVENT, .unchanged = true },
    { .name = "code 1", /* "the recorder must send code 1": Undefined, which neither bit disables */
      .start = { [SCR] = SCR_NS | SCR_SCD, [CPSR] = 0x13, [PC] = 0x8000 },
      .code = CODE_UNDEFINED, .value = 0x1B04,
      .after = { { CPSR, 0x9B }, { LR_und, 0x8004 } }, .named = 2 },
    { .name = "SVC", /* no call that can be disabled */
      .start = { [SCR] = SCR_NS | SCR_SCD, [CPSR] = 0x13, [PC] = 0x8000 },
      .code = CODE_SVC, .value = 0x1308,
      .after = { { CPSR, 0x93 }, { LR_svc, 0x8004 } }, .named = 2 },
};

/* No. 8: how many by hand. */
#define CALL_CASE_COUNT (sizeof CALL_CASES / sizeof CALL_CASES[0])

/* No. 8: what a call comes to; no value of an entry is a number of a refusal. */
enum outcome {
    NOWHERE = NOT_HERE,
    OFF = DISABLED,
    MONITOR = 0x1608, /* DONE, taken to Monitor */
    HYP_14 = 0x1A14,  /* DONE, to Hyp from another mode */
    HYP_08 = 0x1A08   /* DONE, to Hyp from Hyp */
};

/* No. 8: from every mode, Secure and Non-secure: SMC by TSC and SCD, HVC by HCE. */
static const struct caller {
    const char *name;
    uint32_t mode, ns;
    enum outcome smc[2][2]; /* by TSC, then SCD */
    enum outcome hvc[2];    /* by HCE */
} CALLERS[] = {
    { "User",          MODE_USER,       0, { { NOWHERE, NOWHERE }, { NOWHERE, NOWHERE } }, { NOWHERE, NOWHERE } },
    { "FIQ",           MODE_FIQ,        0, { { MONITOR, OFF },     { MONITOR, OFF } },     { NOWHERE, NOWHERE } },
    { "IRQ",           MODE_IRQ,        0, { { MONITOR, OFF },     { MONITOR, OFF } },     { NOWHERE, NOWHERE } },
    { "Supervisor",    MODE_SUPERVISOR, 0, { { MONITOR, OFF },     { MONITOR, OFF } },     { NOWHERE, NOWHERE } },
    { "Monitor",       MODE_MONITOR,    0, { { MONITOR, OFF },     { MONITOR, OFF } },     { NOWHERE, NOWHERE } },
    { "Abort",         MODE_ABORT,      0, { { MONITOR, OFF },     { MONITOR, OFF } },     { NOWHERE, NOWHERE } },
    { "Undefined",     MODE_UNDEFINED,  0, { { MONITOR, OFF },     { MONITOR, OFF } },     { NOWHERE, NOWHERE } },
    { "System",        MODE_SYSTEM,     0, { { MONITOR, OFF },     { MONITOR, OFF } },     { NOWHERE, NOWHERE } },
    { "NS User",       MODE_USER,       1, { { NOWHERE, NOWHERE }, { NOWHERE, NOWHERE } }, { NOWHERE, NOWHERE } },
    { "NS FIQ",        MODE_FIQ,        1, { { MONITOR, OFF },     { HYP_14, HYP_14 } },   { OFF, HYP_14 } },
    { "NS IRQ",        MODE_IRQ,        1, { { MONITOR, OFF },     { HYP_14, HYP_14 } },   { OFF, HYP_14 } },
    { "NS Supervisor", MODE_SUPERVISOR, 1, { { MONITOR, OFF },     { HYP_14, HYP_14 } },   { OFF, HYP_14 } },
    { "NS Monitor",    MODE_MONITOR,    1, { { MONITOR, OFF },     { MONITOR, OFF } },     { NOWHERE, NOWHERE } },
    { "NS Abort",      MODE_ABORT,      1, { { MONITOR, OFF },     { HYP_14, HYP_14 } },   { OFF, HYP_14 } },
    { "Hyp",           MODE_HYP,        1, { { MONITOR, OFF },     { MONITOR, OFF } },     { OFF, HYP_08 } },
    { "NS Undefined",  MODE_UNDEFINED,  1, { { MONITOR, OFF },     { HYP_14, HYP_14 } },   { OFF, HYP_14 } },
    { "NS System",     MODE_SYSTEM,     1, { { MONITOR, OFF },     { HYP_14, HYP_14 } },   { OFF, HYP_14 } },
};

/* No. 8: whether the call comes to this from the mode, with these bits; "A refused step: number, value 0, block unchanged". */
static bool comes_to(uint32_t code, uint32_t mode, uint32_t scr, uint32_t hcr, enum outcome due)
{
    const bool refused = due == NOWHERE || due == OFF;
    uint8_t before[BLOCK_SIZE] = { 0 }, block[BLOCK_SIZE], answer[ANSWER_SIZE];
    uint32_t number;

    put_word(before + 4 * CPSR, mode);
    put_word(before + 4 * PC, 0x8000);
    put_word(before + 4 * SCR, scr);
    put_word(before + 4 * HCR, hcr);
    memcpy(block, before, sizeof block);
    memset(answer, 0xAA, sizeof answer);
    number = second_step(block, sizeof block, code, 0, 0, answer, sizeof answer);
    if (number != get_word(answer))
        return false;
    if (!refused)
        return number == DONE && get_word(answer + 4) == (uint32_t)due;
    return number == (uint32_t)due && get_word(answer + 4) == 0 && memcmp(before, block, sizeof block) == 0;
}

/* No. 8: both calls from one mode, with each of TSC, SCD and HCE 0 and 1. */
static void run_caller(const struct caller *caller)
{
    unsigned calls = 0;

    for (uint32_t bits = 0; bits < 8; bits++) {
        const uint32_t tsc = bits & 1, scd = bits >> 1 & 1, hce = bits >> 2;
        const uint32_t scr = caller->ns * SCR_NS | scd * SCR_SCD | hce * SCR_HCE, hcr = tsc * HCR_TSC;

        calls += comes_to(CODE_SMC, caller->mode, scr, hcr, caller->smc[tsc][scd]);
        calls += comes_to(CODE_HVC, caller->mode, scr, hcr, caller->hvc[hce]);
    }
    printf("%-13s %u calls as due", caller->name, calls);
    tell(calls == 16);
}

/* No. 8: "Old traces that show such a call taken are now WRONG_STEP": taken as with the disable bit the other way. */
static void run_old_call(const struct worked_case *worked, enum layout layout)
{
    uint8_t trace[ONE_LENGTH];

    record_turned(trace, layout, worked, worked->code == CODE_SMC ? SCR_SCD : SCR_HCE);
    run_one("call taken", trace, layout, WRONG_STEP);
    record_turned(trace, layout, worked, 0);
    run_one("call refused", trace, layout, DONE);
}

static void run_calls(void)
{
    for (size_t i = 0; i < CALL_CASE_COUNT; i++) {
        run_case(&CALL_CASES[i]);
        if (CALL_CASES[i].number != DISABLED)
            continue;
        run_old_call(&CALL_CASES[i], OLD_LAYOUT);
        run_old_call(&CALL_CASES[i], NEW_LAYOUT);
    }
    for (size_t i = 0; i < sizeof CALLERS / sizeof CALLERS[0]; i++)
        run_caller(&CALLERS[i]);
}

/* No. 9: the modes that have a saved word: where it stands, and the address. */
static const struct returner {
    uint32_t mode;
    enum place spsr, link;
} RETURNERS[] = {
    { MODE_FIQ,        SPSR_fiq, LR_fiq },
    { MODE_IRQ,        SPSR_irq, LR_irq },
    { MODE_SUPERVISOR, SPSR_svc, LR_svc },
    { MODE_MONITOR,    SPSR_mon, LR_mon },
    { MODE_ABORT,      SPSR_abt, LR_abt },
    { MODE_HYP,        SPSR_hyp, ELR_hyp },
    { MODE_UNDEFINED,  SPSR_und, LR_und },
};

/* No. 9: a return: the words of its block that steer, and A and B. */
struct going_back {
    uint32_t cpsr, scr, hcr;
    uint32_t saved, link; /* the mode's SPSR and LR, of Hyp ELR_hyp */
    uint32_t a, b;
};

enum {
    OLD_FIELDS = 0x680A01C0, /* of CPSR beside the mode: none of them stays */
    OTHER_WORD = 0x01E00100  /* of a place that steers no return, and the place; as a saved word it would be BAD_STATE */
};

/* No. 9: the block of a return; a mode without a saved word finds none. */
static void put_returning(uint8_t *block, const struct going_back *going)
{
    for (uint32_t place = 0; place < PLACES; place++)
        put_word(block + 4 * place, OTHER_WORD + place);
    put_word(block + 4 * CPSR, going->cpsr);
    put_word(block + 4 * SCR, going->scr);
    put_word(block + 4 * HCR, going->hcr);
    for (size_t i = 0; i < sizeof RETURNERS / sizeof RETURNERS[0]; i++) {
        if (RETURNERS[i].mode == (going->cpsr & CPSR_MODE)) {
            put_word(block + 4 * RETURNERS[i].spsr, going->saved);
            put_word(block + 4 * RETURNERS[i].link, going->link);
        }
    }
}

/* No. 9: whether the return gives this number, "A done return has value 0", and leaves the block with these two words. */
static bool goes_back(const struct going_back *going, uint32_t number, uint32_t cpsr, uint32_t pc)
{
    uint8_t due[BLOCK_SIZE], block[BLOCK_SIZE], answer[ANSWER_SIZE];
    uint32_t returned;

    put_returning(block, going);
    put_returning(due, going);
    put_word(due + 4 * CPSR, cpsr);
    put_word(due + 4 * PC, pc);
    memset(answer, 0xAA, sizeof answer);
    returned = second_step(block, sizeof block, CODE_RETURN, going->a, going->b, answer, sizeof answer);
    return returned == number && get_word(answer) == number && get_word(answer + 4) == 0 &&
           memcmp(block, due, sizeof block) == 0;
}

/* No. 9: whether the return is refused with this number: "block unchanged". */
static bool stays(const struct going_back *going, uint32_t number)
{
    return goes_back(going, number, going->cpsr, OTHER_WORD + PC);
}

/* No. 9: done returns, and CPSR and PC behind them. */
static const struct return_case {
    const char *name;
    uint32_t mode, scr, hcr;
    uint32_t saved, link, a;
    uint32_t cpsr, pc;
} RETURN_CASES[] = {
    /* "Legal returns set CPSR to the saved word": each mode with one, Secure too. */
    { "FIQ",          MODE_FIQ,        SCR_NS, 0, 0x10,  0x8004, 4, 0x10,  0x8000 },
    { "IRQ",          MODE_IRQ,        SCR_NS, 0, 0x153, 0x8004, 4, 0x153, 0x8000 },
    { "Supervisor",   MODE_SUPERVISOR, SCR_NS, 0, 0x1F,  0x8004, 0, 0x1F,  0x8004 },
    { "Abort",        MODE_ABORT,      SCR_NS, 0, 0x97,  0x8008, 8, 0x97,  0x8000 },
    { "Undefined",    MODE_UNDEFINED,  SCR_NS, 0, 0x30,  0x8002, 2, 0x30,  0x8000 },
    { "Monitor",      MODE_MONITOR,    SCR_NS, 0, 0x1DA, 0x8004, 4, 0x1DA, 0x8000 },
    { "Hyp",          MODE_HYP,        SCR_NS, 0, 0x92,  0x8000, 0, 0x92,  0x8000 },
    { "Secure FIQ",   MODE_FIQ,        0,      0, 0x10,  0x8004, 4, 0x10,  0x8000 },
    { "Secure Mon",   MODE_MONITOR,    0,      0, 0x1F,  0x8004, 4, 0x1F,  0x8000 },
    { "Secure und",   MODE_UNDEFINED,  0,      0, 0x30,  0x8002, 2, 0x30,  0x8000 },

    /* "its lowest bit cleared if T is 1, else its lowest two", of the address, and so behind the subtraction. */
    { "T 0, odd",     MODE_SUPERVISOR, SCR_NS, 0, 0x10,  0x8007, 0, 0x10,  0x8004 },
    { "T 0, bit 1",   MODE_SUPERVISOR, SCR_NS, 0, 0x10,  0x8006, 0, 0x10,  0x8004 },
    { "T 1, odd",     MODE_SUPERVISOR, SCR_NS, 0, 0x30,  0x8007, 0, 0x30,  0x8006 },
    { "T 1, bit 1",   MODE_SUPERVISOR, SCR_NS, 0, 0x30,  0x8006, 0, 0x30,  0x8006 },
    { "T 0, less 2",  MODE_SUPERVISOR, SCR_NS, 0, 0x10,  0x8005, 2, 0x10,  0x8000 },
    { "T 1, less 2",  MODE_SUPERVISOR, SCR_NS, 0, 0x30,  0x8005, 2, 0x30,  0x8002 },
    { "Hyp, T 0",     MODE_HYP,        SCR_NS, 0, 0x13,  0x8003, 0, 0x13,  0x8000 },
    { "Hyp, T 1",     MODE_HYP,        SCR_NS, 0, 0x33,  0x8003, 0, 0x33,  0x8002 },

    /* "the mode's LR less A", "wrapping". */
    { "4 less 8",     MODE_ABORT,      SCR_NS, 0, 0x10,  4,      8, 0x10,  0xFFFFFFFC },
    { "0 less 2",     MODE_UNDEFINED,  SCR_NS, 0, 0x30,  0,      2, 0x30,  0xFFFFFFFE },
    { "1 less 2",     MODE_UNDEFINED,  SCR_NS, 0, 0x10,  1,      2, 0x10,  0xFFFFFFFC },
    { "3 less 4",     MODE_MONITOR,    0,      0, 0x33,  3,      4, 0x33,  0xFFFFFFFE },

    /* Every field is copied, IT and IL too; bits 25 and 20 are not among "bits 24-21". */
    { "all fields",   MODE_SUPERVISOR, SCR_NS, 0, 0xFE1FFFF0, 0x8000, 0, 0xFE1FFFF0, 0x8000 },
    { "no field",     MODE_SUPERVISOR, SCR_NS, 0, 0x10,       0x8000, 0, 0x10,       0x8000 },
    { "bits 25, 20",  MODE_SUPERVISOR, SCR_NS, 0, 0x02100010, 0x8000, 0, 0x02100010, 0x8000 },
    { "IT, Hyp",      MODE_HYP,        SCR_NS, 0, 0x0600FC33, 0x8002, 0, 0x0600FC33, 0x8002 },

    /* "the mode stays, IL becomes 1, the other fields and the address as in the legal case". */
    { "illegal, all", MODE_SUPERVISOR, SCR_NS, 0, 0xFE1FFFFA, 0x8007, 4, 0xFE1FFFF3, 0x8002 },
    { "IL 0",         MODE_SUPERVISOR, SCR_NS, 0, 0xFE0FFFFA, 0x8007, 4, 0xFE1FFFF3, 0x8002 },
    { "illegal, T 0", MODE_SUPERVISOR, SCR_NS, 0, 0x1A,       0x8007, 4, 0x100013,   0x8000 },
    { "illegal, A 8", MODE_ABORT,      SCR_NS, 0, 0x16,       4,      8, 0x100017,   0xFFFFFFFC },
    { "illegal, Hyp", MODE_HYP,        SCR_NS, 0, 0x0600FC36, 0x8003, 0, 0x0610FC3A, 0x8002 },

    /* "a reserved mode", bit 4 clear included; beside it a mode that there is. */
    { "0x13",         MODE_IRQ,        SCR_NS, 0, 0x13, 0x8000, 0, 0x13,     0x8000 },
    { "0x03",         MODE_IRQ,        SCR_NS, 0, 0x03, 0x8000, 0, 0x100012, 0x8000 },
    { "0x14",         MODE_IRQ,        SCR_NS, 0, 0x14, 0x8000, 0, 0x100012, 0x8000 },
    { "0x1E, Hyp",    MODE_HYP,        SCR_NS, 0, 0x1E, 0x8000, 0, 0x10001A, 0x8000 },
    { "0x1F, Hyp",    MODE_HYP,        SCR_NS, 0, 0x1F, 0x8000, 0, 0x1F,     0x8000 },
    { "0, Monitor",   MODE_MONITOR,    0,      0, 0x00, 0x8000, 0, 0x100016, 0x8000 },
    { "0x15, Mon",    MODE_MONITOR,    0,      0, 0x15, 0x8000, 0, 0x100016, 0x8000 },
    { "0x16, Mon",    MODE_MONITOR,    0,      0, 0x16, 0x8000, 0, 0x16,     0x8000 },

    /* "a higher Exception level"; beside it the level itself.  Secure modes other than User stand at EL3. */
    { "EL1 to Hyp",   MODE_SUPERVISOR, SCR_NS, 0, 0x1A, 0x8000, 0, 0x100013, 0x8000 },
    { "EL1 to EL1",   MODE_SUPERVISOR, SCR_NS, 0, 0x1B, 0x8000, 0, 0x1B,     0x8000 },
    { "EL1 to Mon",   MODE_SUPERVISOR, SCR_NS, 0, 0x16, 0x8000, 0, 0x100013, 0x8000 },
    { "svc to Mon",   MODE_SUPERVISOR, 0,      0, 0x16, 0x8000, 0, 0x16,     0x8000 },
    { "Hyp to Mon",   MODE_HYP,        SCR_NS, 0, 0x16, 0x8000, 0, 0x10001A, 0x8000 },
    { "Hyp to Hyp",   MODE_HYP,        SCR_NS, 0, 0x1A, 0x8000, 0, 0x1A,     0x8000 },
    { "Mon to Mon",   MODE_MONITOR,    SCR_NS, 0, 0x16, 0x8000, 0, 0x16,     0x8000 },

    /* "Hyp with NS 0". */
    { "Hyp, NS 0",    MODE_MONITOR,    0,      0, 0x1A, 0x8000, 0, 0x100016, 0x8000 },
    { "Hyp, NS 1",    MODE_MONITOR,    SCR_NS, 0, 0x1A, 0x8000, 0, 0x1A,     0x8000 },
    { "svc to Hyp",   MODE_SUPERVISOR, 0,      0, 0x1A, 0x8000, 0, 0x100013, 0x8000 },

    /* "Non-secure EL1 with TGE 1"; with NS 0 TGE plays no part, and User and Hyp are no EL1. */
    { "Hyp, TGE 1",   MODE_HYP,     SCR_NS, HCR_TGE, 0x13, 0x8000, 0, 0x10001A, 0x8000 },
    { "Hyp, TGE 0",   MODE_HYP,     SCR_NS, 0,       0x13, 0x8000, 0, 0x13,     0x8000 },
    { "Hyp to User",  MODE_HYP,     SCR_NS, HCR_TGE, 0x10, 0x8000, 0, 0x10,     0x8000 },
    { "Mon, TGE 1",   MODE_MONITOR, SCR_NS, HCR_TGE, 0x13, 0x8000, 0, 0x100016, 0x8000 },
    { "Mon, TGE 0",   MODE_MONITOR, SCR_NS, 0,       0x13, 0x8000, 0, 0x13,     0x8000 },
    { "Mon, NS 0",    MODE_MONITOR, 0,      HCR_TGE, 0x13, 0x8000, 0, 0x13,     0x8000 },
    { "to System",    MODE_MONITOR, SCR_NS, HCR_TGE, 0x1F, 0x8000, 0, 0x100016, 0x8000 },
    { "Mon to User",  MODE_MONITOR, SCR_NS, HCR_TGE, 0x10, 0x8000, 0, 0x10,     0x8000 },
    { "Mon to Hyp",   MODE_MONITOR, SCR_NS, HCR_TGE, 0x1A, 0x8000, 0, 0x1A,     0x8000 },
    { "svc, TGE 1",   MODE_SUPERVISOR, 0,   HCR_TGE, 0x12, 0x8000, 0, 0x12,     0x8000 },
};

static void run_return(const struct return_case *due)
{
    const struct going_back going = { OLD_FIELDS | due->mode, due->scr, due->hcr, due->saved, due->link, due->a, 0 };

    printf("%-12s  CPSR 0x%X, PC 0x%X", due->name, (unsigned)due->cpsr, (unsigned)due->pc);
    tell(goes_back(&going, DONE, due->cpsr, due->pc));
}

/* No. 9: sets of modes, one bit for each mode number. */
#define TO(mode) (UINT32_C(1) << (mode))
#define TO_EL1 (TO(MODE_FIQ) | TO(MODE_IRQ) | TO(MODE_SUPERVISOR) | TO(MODE_ABORT) | TO(MODE_UNDEFINED) | TO(MODE_SYSTEM))
#define TO_EL0 TO(MODE_USER)
#define NOWHERE_GOOD 0 /* with TGE 1 such a block is not good */

/* No. 9: where a legal return can go from every mode that has a saved word, by TGE. */
static const struct leaving {
    const char *name;
    uint32_t mode, ns;
    uint32_t legal[2];
} LEAVINGS[] = {
    { "FIQ",           MODE_FIQ,        0, { TO_EL0 | TO_EL1 | TO(MODE_MONITOR), TO_EL0 | TO_EL1 | TO(MODE_MONITOR) } },
    { "IRQ",           MODE_IRQ,        0, { TO_EL0 | TO_EL1 | TO(MODE_MONITOR), TO_EL0 | TO_EL1 | TO(MODE_MONITOR) } },
    { "Supervisor",    MODE_SUPERVISOR, 0, { TO_EL0 | TO_EL1 | TO(MODE_MONITOR), TO_EL0 | TO_EL1 | TO(MODE_MONITOR) } },
    { "Monitor",       MODE_MONITOR,    0, { TO_EL0 | TO_EL1 | TO(MODE_MONITOR), TO_EL0 | TO_EL1 | TO(MODE_MONITOR) } },
    { "Abort",         MODE_ABORT,      0, { TO_EL0 | TO_EL1 | TO(MODE_MONITOR), TO_EL0 | TO_EL1 | TO(MODE_MONITOR) } },
    { "Undefined",     MODE_UNDEFINED,  0, { TO_EL0 | TO_EL1 | TO(MODE_MONITOR), TO_EL0 | TO_EL1 | TO(MODE_MONITOR) } },
    { "NS FIQ",        MODE_FIQ,        1, { TO_EL0 | TO_EL1, NOWHERE_GOOD } },
    { "NS IRQ",        MODE_IRQ,        1, { TO_EL0 | TO_EL1, NOWHERE_GOOD } },
    { "NS Supervisor", MODE_SUPERVISOR, 1, { TO_EL0 | TO_EL1, NOWHERE_GOOD } },
    { "NS Abort",      MODE_ABORT,      1, { TO_EL0 | TO_EL1, NOWHERE_GOOD } },
    { "NS Undefined",  MODE_UNDEFINED,  1, { TO_EL0 | TO_EL1, NOWHERE_GOOD } },
    { "Hyp",           MODE_HYP,        1, { TO_EL0 | TO_EL1 | TO(MODE_HYP), TO_EL0 | TO(MODE_HYP) } },
    { "NS Monitor",    MODE_MONITOR,    1, { TO_EL0 | TO_EL1 | TO(MODE_HYP) | TO(MODE_MONITOR),
                                             TO_EL0 | TO(MODE_HYP) | TO(MODE_MONITOR) } },
};

/* No. 9: whether a return to a mode number, legal or not, is as due. */
static bool leaves(const struct leaving *leaving, uint32_t tge, uint32_t mode)
{
    const uint32_t legal = leaving->legal[tge];
    const struct going_back going = { OLD_FIELDS | leaving->mode, leaving->ns * SCR_NS, tge * HCR_TGE, mode, 0x8004, 0, 0 };

    if (legal == NOWHERE_GOOD)
        return stays(&going, BAD_STATE);
    return goes_back(&going, DONE, (legal & TO(mode)) != 0 ? mode : leaving->mode | CPSR_IL, 0x8004);
}

/* No. 9: from one mode to each of the 32 mode numbers, with TGE 0 and 1. */
static void run_leaving(const struct leaving *leaving)
{
    unsigned returns = 0;

    for (uint32_t mode = 0; mode < 32; mode++) {
        returns += leaves(leaving, 0, mode);
        returns += leaves(leaving, 1, mode);
    }
    printf("%-13s %u returns as due", leaving->name, returns);
    tell(returns == 64);
}

/* No. 9: refused returns; where two numbers apply, the lower. */
static const struct {
    const char *name;
    struct going_back going;
    uint32_t number;
} REFUSED_RETURNS[] = {
    /* 2, before 3 and 4. */
    { "mode 0x14",    { 0x14,       SCR_NS, 0,       0x10, 0, 0, 0 }, BAD_MODE },
    { "2 before 3",   { 0x01000014, SCR_NS, 0,       0x10, 0, 0, 0 }, BAD_MODE },
    { "2 before 4",   { 0x14,       SCR_NS, 0,       0x10, 0, 1, 0 }, BAD_MODE },

    /* 3 of the block, before 4 and 5. */
    { "CPSR bit 24",  { 0x01000013, SCR_NS, 0,       0x10, 0, 0, 0 }, BAD_STATE },
    { "EL1, TGE 1",   { 0x13,       SCR_NS, HCR_TGE, 0x10, 0, 0, 0 }, BAD_STATE },
    { "Hyp, NS 0",    { 0x1A,       0,      0,       0x10, 0, 0, 0 }, BAD_STATE },
    { "3 before 4",   { 0x00200013, SCR_NS, 0,       0x10, 0, 1, 0 }, BAD_STATE },
    { "3 before 5",   { 0x00200010, SCR_NS, 0,       0x10, 0, 0, 0 }, BAD_STATE },

    /* 3 of "A saved word with any of bits 24-21 set", legal or not. */
    { "bit 21",       { 0x13, SCR_NS, 0, 0x00200010, 0, 0, 0 }, BAD_STATE },
    { "bit 22",       { 0x12, SCR_NS, 0, 0x00400010, 0, 0, 0 }, BAD_STATE },
    { "bit 23",       { 0x16, 0,      0, 0x00800010, 0, 0, 0 }, BAD_STATE },
    { "bit 24",       { 0x1A, SCR_NS, 0, 0x01000010, 0, 0, 0 }, BAD_STATE },
    { "bit 24, 0x14", { 0x17, SCR_NS, 0, 0x01000014, 0, 0, 0 }, BAD_STATE },
    { "3, and A 1",   { 0x13, SCR_NS, 0, 0x01000010, 0, 1, 0 }, BAD_STATE },
    { "3, and B 1",   { 0x13, SCR_NS, 0, 0x00200010, 0, 0, 1 }, BAD_STATE },
    { "Hyp, 3, A 4",  { 0x1A, SCR_NS, 0, 0x00200010, 0, 4, 0 }, BAD_STATE },

    /* 4, before 5; an illegal return is no less refused. */
    { "A 1",          { 0x13, SCR_NS, 0, 0x10, 0, 1, 0 },          BAD_EVENT },
    { "A 16",         { 0x13, SCR_NS, 0, 0x10, 0, 16, 0 },         BAD_EVENT },
    { "B 1",          { 0x13, SCR_NS, 0, 0x10, 0, 4, 1 },          BAD_EVENT },
    { "B 2^31",       { 0x1A, SCR_NS, 0, 0x10, 0, 0, 0x80000000 }, BAD_EVENT },
    { "0x14, A 6",    { 0x13, SCR_NS, 0, 0x14, 0, 6, 0 },          BAD_EVENT },
    { "Hyp, A 2",     { 0x1A, SCR_NS, 0, 0x10, 0, 2, 0 },          BAD_EVENT },
    { "User, A 1",    { 0x10, SCR_NS, 0, 0,    0, 1, 0 },          BAD_EVENT },
    { "User, B 1",    { 0x10, 0,      0, 0,    0, 0, 1 },          BAD_EVENT },
    { "System, A 3",  { 0x1F, SCR_NS, 0, 0,    0, 3, 0 },          BAD_EVENT },

    /* 5: "User and System have none", so that no bits 24-21 of theirs can be set. */
    { "User",         { 0x10, SCR_NS, 0,       0, 0, 0, 0 }, NOT_HERE },
    { "User, TGE 1",  { 0x10, SCR_NS, HCR_TGE, 0, 0, 8, 0 }, NOT_HERE },
    { "Secure User",  { 0x10, 0,      0,       0, 0, 4, 0 }, NOT_HERE },
    { "System",       { 0x1F, SCR_NS, 0,       0, 0, 0, 0 }, NOT_HERE },
    { "Secure sys",   { 0x1F, 0,      0,       0, 0, 2, 0 }, NOT_HERE },
};

static void run_refused_returns(void)
{
    for (size_t i = 0; i < sizeof REFUSED_RETURNS / sizeof REFUSED_RETURNS[0]; i++) {
        printf("%-12s  number %u", REFUSED_RETURNS[i].name, (unsigned)REFUSED_RETURNS[i].number);
        tell(stays(&REFUSED_RETURNS[i].going, REFUSED_RETURNS[i].number));
    }
}

/* No. 9: sizes go before all, also from a mode that is not known: "neither buffer changes". */
static void run_return_sizes(const char *name, size_t block_len, size_t answer_len)
{
    const struct going_back going = { .cpsr = 0x14, .a = 1 };
    uint8_t before[BLOCK_SIZE], block[BLOCK_SIZE], answer[ANSWER_SIZE];
    uint32_t number;

    put_returning(before, &going);
    memcpy(block, before, sizeof block);
    memset(answer, OLD_BYTE, sizeof answer);
    number = second_step(block, block_len, CODE_RETURN, going.a, going.b, answer, answer_len);
    printf("%-12s  number %u", name, (unsigned)number);
    tell(number == BAD_SIZE && memcmp(block, before, sizeof block) == 0 && are_old(answer, sizeof answer));
}

/* No. 9: the A that are tried: 0 to 1023, and each single bit above them, 10 to 31. */
enum {
    SMALL_A = 1024,
    TRIED_A = SMALL_A + 22
};

static uint32_t tried_a(uint32_t i)
{
    return i < SMALL_A ? i : (uint32_t)SMALL_A << (i - SMALL_A);
}

/* No. 9: "From Hyp ... A must be 0.  Elsewhere ... A one of 0, 2, 4, 8": so many A give this number, others BAD_EVENT. */
static void run_taken_off(const char *name, uint32_t mode, uint32_t number, unsigned due)
{
    struct going_back going = { mode, SCR_NS, 0, 0x10, 0x8000, 0, 0 };
    unsigned taken = 0, others = 0;

    for (uint32_t i = 0; i < TRIED_A; i++) {
        going.a = tried_a(i);
        if (number == DONE)
            taken += goes_back(&going, DONE, 0x10, (0x8000 - going.a) & ~UINT32_C(3));
        else
            taken += stays(&going, number);
        others += stays(&going, BAD_EVENT);
    }
    printf("%-12s  %u of %u A", name, taken, (unsigned)TRIED_A);
    tell(taken == due && taken + others == TRIED_A);
}

static void run_return_refusals(void)
{
    run_return_sizes("block 176", OLD_BLOCK_SIZE, ANSWER_SIZE);
    run_return_sizes("block 179", BLOCK_SIZE - 1, ANSWER_SIZE);
    run_return_sizes("answer 7", BLOCK_SIZE, ANSWER_SIZE - 1);
    run_refused_returns();
    run_taken_off("A, svc", MODE_SUPERVISOR, DONE, 4);
    run_taken_off("A, Monitor", MODE_MONITOR, DONE, 4);
    run_taken_off("A, Hyp", MODE_HYP, DONE, 1);
    run_taken_off("A, User", MODE_USER, NOT_HERE, 4);
    run_taken_off("A, System", MODE_SYSTEM, NOT_HERE, 4);
}

/* No. 9: "each of codes 1, 2, 5, 6 that enters ..., followed by a return with the manual's subtraction". */
static const struct trip {
    const char *name;
    uint32_t mode, scr, hcr;
    uint32_t code, a;
    uint32_t entered;
    uint32_t less[2];  /* "subtraction of", by T of the saved word */
    uint32_t ahead[2]; /* of PC: where it comes back to, by T */
} TRIPS[] = {
    { "1, Secure",    MODE_USER, 0,      0,       CODE_UNDEFINED,      0, MODE_UNDEFINED,  { 4, 2 }, { 0, 0 } },
    { "2, Secure",    MODE_USER, 0,      0,       CODE_SVC,            0, MODE_SUPERVISOR, { 0, 0 }, { 4, 2 } },
    { "5, Secure",    MODE_USER, 0,      0,       CODE_PREFETCH_ABORT, 0, MODE_ABORT,      { 4, 4 }, { 0, 0 } },
    { "6, Secure",    MODE_USER, 0,      0,       CODE_DATA_ABORT,     0, MODE_ABORT,      { 8, 8 }, { 0, 0 } },
    { "2, TGE 1",     MODE_USER, 0,      HCR_TGE, CODE_SVC,            0, MODE_SUPERVISOR, { 0, 0 }, { 4, 2 } },
    { "1, User",      MODE_USER, SCR_NS, 0,       CODE_UNDEFINED,      0, MODE_UNDEFINED,  { 4, 2 }, { 0, 0 } },
    { "2, User",      MODE_USER, SCR_NS, 0,       CODE_SVC,            0, MODE_SUPERVISOR, { 0, 0 }, { 4, 2 } },
    { "5, User",      MODE_USER, SCR_NS, 0,       CODE_PREFETCH_ABORT, 0, MODE_ABORT,      { 4, 4 }, { 0, 0 } },
    { "6, User",      MODE_USER, SCR_NS, 0,       CODE_DATA_ABORT,     0, MODE_ABORT,      { 8, 8 }, { 0, 0 } },
    { "5, external",  MODE_USER, SCR_NS, 0,       CODE_PREFETCH_ABORT, 1, MODE_ABORT,      { 4, 4 }, { 0, 0 } },
    { "6, external",  MODE_USER, SCR_NS, 0,       CODE_DATA_ABORT,     1, MODE_ABORT,      { 8, 8 }, { 0, 0 } },
    { "1, to Hyp",    MODE_USER, SCR_NS, HCR_TGE, CODE_UNDEFINED,      0, MODE_HYP,        { 0, 0 }, { 0, 0 } },
    { "2, to Hyp",    MODE_USER, SCR_NS, HCR_TGE, CODE_SVC,            0, MODE_HYP,        { 0, 0 }, { 4, 2 } },
    { "5, to Hyp",    MODE_USER, SCR_NS, HCR_TGE, CODE_PREFETCH_ABORT, 0, MODE_HYP,        { 0, 0 }, { 0, 0 } },
    { "6, to Hyp",    MODE_USER, SCR_NS, HCR_TGE, CODE_DATA_ABORT,     0, MODE_HYP,        { 0, 0 }, { 0, 0 } },
    { "5, stage 2",   MODE_USER, SCR_NS, 0,       CODE_PREFETCH_ABORT, 2, MODE_HYP,        { 0, 0 }, { 0, 0 } },
    { "6, stage 2",   MODE_USER, SCR_NS, 0,       CODE_DATA_ABORT,     2, MODE_HYP,        { 0, 0 }, { 0, 0 } },
    { "5, FIQ",       MODE_FIQ,        SCR_NS, 0, CODE_PREFETCH_ABORT, 2, MODE_HYP,        { 0, 0 }, { 0, 0 } },
    { "5, IRQ",       MODE_IRQ,        SCR_NS, 0, CODE_PREFETCH_ABORT, 3, MODE_HYP,        { 0, 0 }, { 0, 0 } },
    { "5, svc",       MODE_SUPERVISOR, SCR_NS, 0, CODE_PREFETCH_ABORT, 2, MODE_HYP,        { 0, 0 }, { 0, 0 } },
    { "6, Abort",     MODE_ABORT,      SCR_NS, 0, CODE_DATA_ABORT,     2, MODE_HYP,        { 0, 0 }, { 0, 0 } },
    { "6, Undefined", MODE_UNDEFINED,  SCR_NS, 0, CODE_DATA_ABORT,     3, MODE_HYP,        { 0, 0 }, { 0, 0 } },
    { "6, System",    MODE_SYSTEM,     SCR_NS, 0, CODE_DATA_ABORT,     2, MODE_HYP,        { 0, 0 }, { 0, 0 } },
};

/* No. 9: whether there and back "restores mode and masks", and all of CPSR, with these fields, and this in each SCTLR. */
static bool comes_back(const struct trip *trip, uint32_t fields, uint32_t sctlr)
{
    const uint32_t t = (fields & CPSR_T) != 0, cpsr = fields | trip->mode;
    uint8_t block[BLOCK_SIZE] = { 0 }, answer[ANSWER_SIZE];
    bool right;

    put_word(block + 4 * CPSR, cpsr);
    put_word(block + 4 * PC, 0x8000);
    put_word(block + 4 * SCR, trip->scr);
    put_word(block + 4 * HCR, trip->hcr);
    put_word(block + 4 * SCTLR_S, sctlr);
    put_word(block + 4 * SCTLR_NS, sctlr);
    put_word(block + 4 * HSCTLR, sctlr);
    right = second_step(block, sizeof block, trip->code, trip->a, 0, answer, sizeof answer) == DONE &&
            (get_word(block + 4 * CPSR) & CPSR_MODE) == trip->entered;
    right = right && second_step(block, sizeof block, CODE_RETURN, trip->less[t], 0, answer, sizeof answer) == DONE;
    return right && get_word(block + 4 * CPSR) == cpsr && get_word(block + 4 * PC) == 0x8000 + trip->ahead[t];
}

/* No. 9: with T, each mask and E 0 and 1, TE and EE 0 and 1, and the flags. */
static void run_trip(const struct trip *trip)
{
    unsigned trips = 0;

    for (uint32_t bits = 0; bits < 32; bits++) {
        trips += comes_back(trip, bits * CPSR_T, 0);
        trips += comes_back(trip, bits * CPSR_T | 0xF80F0000, SCTLR_TE | SCTLR_EE);
    }
    printf("%-12s  %u there and back", trip->name, trips);
    tell(trips == 64);
}

/* No. 9: from Non-secure User, an SVC and its return, behind a refused one; then what User gets, and an unknown code. */
static const struct pomurica_event THERE_AND_BACK[] = {
    { CODE_SVC, 0, 0 },
    { CODE_RETURN, 1, 0 },
    { CODE_RETURN, 0, 0 },
    { CODE_RETURN, 0, 0 },
    { CODES, 0, 0 },
};

enum {
    THERE_STEPS = sizeof THERE_AND_BACK / sizeof THERE_AND_BACK[0],
    THERE_LENGTH = START_LENGTH + THERE_STEPS * STEP_LENGTH + END_LENGTH,
    THERE_RETURN = START_LENGTH + 2 * STEP_LENGTH /* where the Step of the done return begins */
};

static const struct pomurica_answer THERE_ANSWERS[THERE_STEPS] = {
    { DONE, 0x1308 }, { BAD_EVENT, 0 }, { DONE, 0 }, { NOT_HERE, 0 }, { BAD_EVENT, 0 },
};

/* No. 9: the counts "take it under code 13 and not as an entry"; the SVC is the one there is. */
static const char THERE_COUNTS[] = "1 0 1\n1 2 1\n1 13 3\n2 0 2\n2 4 2\n2 5 1\n3 19 1\n";

/* No. 9, No. 2: the SVC and its return leave what the entry saved, and PC behind the SVC. */
static void run_returning_batch(void)
{
    struct pomurica_answer answers[THERE_STEPS];
    uint8_t due[BLOCK_SIZE], block[BLOCK_SIZE];
    uint32_t number;

    put_first_block(block, MODE_USER);
    put_first_block(due, MODE_USER);
    put_word(due + 4 * SPSR_svc, MODE_USER);
    put_word(due + 4 * LR_svc, 0x8004);
    put_word(due + 4 * PC, 0x8004);
    number = second_batch(THERE_AND_BACK, THERE_STEPS, answers, THERE_STEPS, block, sizeof block);
    printf("%-12s  number %u, PC 0x%X", "batch", (unsigned)number, (unsigned)get_word(block + 4 * PC));
    tell(number == DONE && memcmp(answers, THERE_ANSWERS, sizeof answers) == 0 && memcmp(block, due, sizeof block) == 0);
}

/* No. 9, The trace: the list as recorded, with one word of the return's Step another one, is WRONG_STEP there. */
static void run_wrong_return(const char *name, const uint8_t *recorded, size_t part, uint32_t word)
{
    uint8_t trace[THERE_LENGTH];

    memcpy(trace, recorded, sizeof trace);
    put_word(trace + THERE_RETURN + part, word);
    run_trace(name, trace, sizeof trace, WRONG_STEP, THERE_RETURN, 2);
}

/* No. 9, No. 7, No. 6, No. 1: the list recorded, checked at once and as it arrives, and counted. */
static void run_returning_trace(void)
{
    uint8_t block[BLOCK_SIZE], trace[THERE_LENGTH], counts[COUNTS_SIZE] = { 0 };
    uint32_t number;

    put_first_block(block, MODE_USER);
    number = second_record(block, sizeof block, THERE_AND_BACK, THERE_STEPS, trace, sizeof trace, 0);
    printf("%-12s  number %u, %u bytes", "record", (unsigned)number, (unsigned)sizeof trace);
    tell(number == DONE);
    run_trace("trace", trace, sizeof trace, DONE, THERE_LENGTH, THERE_STEPS);
    run_known("session", trace, sizeof trace, sizeof trace, DONE, THERE_LENGTH, THERE_STEPS);
    run_count("counts", trace, sizeof trace, counts, DONE);
    run_lines("counts", counts, THERE_COUNTS);
    run_wrong_return("number 4", trace, STEP_ANSWER, BAD_EVENT);
    run_wrong_return("value", trace, STEP_VALUE, 0x1000);
    run_wrong_return("mode stays", trace, STEP_BLOCK + 4 * CPSR, 0x93);
    run_wrong_return("PC stays", trace, STEP_BLOCK + 4 * PC, 0x10000008);
    run_wrong_return("SPSR_svc", trace, STEP_BLOCK + 4 * SPSR_svc, 0);
}

static void run_returns(void)
{
    for (size_t i = 0; i < sizeof RETURN_CASES / sizeof RETURN_CASES[0]; i++)
        run_return(&RETURN_CASES[i]);
    for (size_t i = 0; i < sizeof LEAVINGS / sizeof LEAVINGS[0]; i++)
        run_leaving(&LEAVINGS[i]);
    run_return_refusals();
    for (size_t i = 0; i < sizeof TRIPS / sizeof TRIPS[0]; i++)
        run_trip(&TRIPS[i]);
    run_returning_batch();
    run_returning_trace();
}

/* No. 10: the paper's own, and where two numbers fit; the table below has the others. */
static const struct worked_case DENIED_CASES[] = {
    { .name = "SP_svc", /* "SP_svc from Supervisor is 17" */
      .start = { [SCR] = SCR_NS, [CPSR] = 0x13, [PC] = 0x8000, [SP_svc] = 0x600DCAFE },
      .code = CODE_BANKED_READ, .a = 19, .number = OWN_REGISTER, .unchanged = true },
    { .name = "SP_svc, 11",
      .start = { [SCR] = SCR_NS, [CPSR] = 0x13, [PC] = 0x8000, [SP_svc] = 0x600DCAFE },
      .code = CODE_BANKED_WRITE, .a = 19, .number = OWN_REGISTER, .unchanged = true },
    { .name = "SP_svc, S",
      .start = { [CPSR] = 0x13, [PC] = 0x8000, [SP_svc] = 0x600DCAFE },
      .code = CODE_BANKED_READ, .a = 19, .number = OWN_REGISTER, .unchanged = true },
    { .name = "SP_hyp", /* "SP_hyp from Supervisor is 7"; "case i does not" change */
      .start = { [SCR] = SCR_NS, [CPSR] = 0x13, [PC] = 0x8000, [SP_hyp] = 0x600DCAFE },
      .code = CODE_BANKED_READ, .a = 31, .number = NO_RIGHT, .unchanged = true },
    { .name = "SP_hyp, 11",
      .start = { [SCR] = SCR_NS, [CPSR] = 0x13, [PC] = 0x8000, [SP_hyp] = 0x600DCAFE },
      .code = CODE_BANKED_WRITE, .a = 31, .number = NO_RIGHT, .unchanged = true },
    { .name = "SPSR_hyp", /* "SPSR_hyp from Hyp is 17" */
      .start = { [SCR] = SCR_NS, [CPSR] = 0x1A, [PC] = 0x8000, [SPSR_hyp] = 0x600DCAFE },
      .code = CODE_BANKED_READ, .a = 62, .number = OWN_REGISTER, .unchanged = true },
    { .name = "SPSR_hyp, 11",
      .start = { [SCR] = SCR_NS, [CPSR] = 0x1A, [PC] = 0x8000, [SPSR_hyp] = 0x600DCAFE },
      .code = CODE_BANKED_WRITE, .a = 62, .number = OWN_REGISTER, .unchanged = true },
    { .name = "User, R8_usr", /* "any register from User is 7": User could reach this one, "if both fit, 7" */
      .start = { [SCR] = SCR_NS, [CPSR] = 0x10, [PC] = 0x8000, [R8_usr] = 0x600DCAFE },
      .code = CODE_BANKED_READ, .a = 0, .number = NO_RIGHT, .unchanged = true },
    { .name = "User, LR_usr",
      .start = { [CPSR] = 0x10, [PC] = 0x8000, [LR_usr] = 0x600DCAFE },
      .code = CODE_BANKED_WRITE, .a = 6, .number = NO_RIGHT, .unchanged = true },
    { .name = "User, A 7", /* NO_REGISTER is the lower */
      .start = { [SCR] = SCR_NS, [CPSR] = 0x10, [PC] = 0x8000 },
      .code = CODE_BANKED_READ, .a = 7, .number = NO_REGISTER, .unchanged = true },
    { .name = "svc, A 83", /* SP_svc's 19, and 64: BAD_EVENT */
      .start = { [SCR] = SCR_NS, [CPSR] = 0x13, [PC] = 0x8000 },
      .code = CODE_BANKED_READ, .a = 83, .number = BAD_EVENT, .unchanged = true },
    { .name = "svc, TGE 1", /* not good: BAD_STATE */
      .start = { [SCR] = SCR_NS, [HCR] = HCR_TGE, [CPSR] = 0x13, [PC] = 0x8000 },
      .code = CODE_BANKED_READ, .a = 19, .number = BAD_STATE, .unchanged = true },
};

/* No. 10: how many by hand. */
#define DENIED_CASE_COUNT (sizeof DENIED_CASES / sizeof DENIED_CASES[0])

/* No. 10: sets of registers, one bit for each A that names one. */
#define CELL(a) (UINT64_C(1) << (a))
#define R8_TO_R12_USR (CELL(0) | CELL(1) | CELL(2) | CELL(3) | CELL(4))
#define SP_LR_USR (CELL(5) | CELL(6))
#define ONLY_LR_USR CELL(6)
#define ALL_FIQ (CELL(8) | CELL(9) | CELL(10) | CELL(11) | CELL(12) | CELL(13) | CELL(14) | CELL(32 + 14))
#define ALL_IRQ (CELL(16) | CELL(17) | CELL(32 + 16))
#define ALL_SVC (CELL(18) | CELL(19) | CELL(32 + 18))
#define ALL_ABT (CELL(20) | CELL(21) | CELL(32 + 20))
#define ALL_UND (CELL(22) | CELL(23) | CELL(32 + 22))
#define ALL_MON (CELL(28) | CELL(29) | CELL(32 + 28))
#define SP_SPSR_HYP (CELL(31) | CELL(32 + 30))
#define ALL_HYP (CELL(30) | SP_SPSR_HYP)
#define NO_CELL UINT64_C(0)
#define ALL_CELLS (R8_TO_R12_USR | SP_LR_USR | ALL_FIQ | ALL_IRQ | ALL_SVC | ALL_ABT | ALL_UND | ALL_MON | ALL_HYP)

/* No. 10: what source 004 has that "cannot access", by mode: "The current mode registers", and the others; User none at all. */
static const struct reacher {
    const char *name;
    uint32_t mode, ns;
    uint64_t own, beyond;
} REACHERS[] = {
    { "User",          MODE_USER,       0, NO_CELL,                                   ALL_CELLS },
    { "FIQ",           MODE_FIQ,        0, ALL_FIQ,                                   ALL_HYP },
    { "IRQ",           MODE_IRQ,        0, R8_TO_R12_USR | ALL_IRQ,                   ALL_HYP },
    { "Supervisor",    MODE_SUPERVISOR, 0, R8_TO_R12_USR | ALL_SVC,                   ALL_HYP },
    { "Monitor",       MODE_MONITOR,    0, R8_TO_R12_USR | ALL_MON,                   NO_CELL },
    { "Abort",         MODE_ABORT,      0, R8_TO_R12_USR | ALL_ABT,                   ALL_HYP },
    { "Undefined",     MODE_UNDEFINED,  0, R8_TO_R12_USR | ALL_UND,                   ALL_HYP },
    { "System",        MODE_SYSTEM,     0, R8_TO_R12_USR | SP_LR_USR,                 ALL_HYP },
    { "NS User",       MODE_USER,       1, NO_CELL,                                   ALL_CELLS },
    { "NS FIQ",        MODE_FIQ,        1, ALL_FIQ,                                   ALL_MON | ALL_HYP },
    { "NS IRQ",        MODE_IRQ,        1, R8_TO_R12_USR | ALL_IRQ,                   ALL_MON | ALL_HYP },
    { "NS Supervisor", MODE_SUPERVISOR, 1, R8_TO_R12_USR | ALL_SVC,                   ALL_MON | ALL_HYP },
    { "NS Monitor",    MODE_MONITOR,    1, R8_TO_R12_USR | ALL_MON,                   NO_CELL },
    { "NS Abort",      MODE_ABORT,      1, R8_TO_R12_USR | ALL_ABT,                   ALL_MON | ALL_HYP },
    { "Hyp",           MODE_HYP,        1, R8_TO_R12_USR | ONLY_LR_USR | SP_SPSR_HYP, ALL_MON },
    { "NS Undefined",  MODE_UNDEFINED,  1, R8_TO_R12_USR | ALL_UND,                   ALL_MON | ALL_HYP },
    { "NS System",     MODE_SYSTEM,     1, R8_TO_R12_USR | SP_LR_USR,                 ALL_MON | ALL_HYP },
};

/* No. 10: the number of an access from the mode to what A names. */
static uint32_t number_of_access(const struct reacher *reacher, uint32_t a)
{
    if ((ALL_CELLS & CELL(a)) == 0)
        return NO_REGISTER;
    if ((reacher->beyond & CELL(a)) != 0)
        return NO_RIGHT;
    return (reacher->own & CELL(a)) != 0 ? OWN_REGISTER : DONE;
}

/* No. 10: whether an access gives its number; "A refused step: number, value 0, block unchanged", and no write was done. */
static bool reaches(const struct reacher *reacher, uint32_t code, uint32_t a)
{
    const uint32_t due = number_of_access(reacher, a);
    uint8_t before[BLOCK_SIZE], block[BLOCK_SIZE], answer[ANSWER_SIZE];
    uint32_t number;
    bool stayed;

    memset(before, 0x11, sizeof before);
    put_word(before + 4 * CPSR, reacher->mode);
    put_word(before + 4 * SCR, reacher->ns * SCR_NS);
    put_word(before + 4 * HCR, 0);
    memcpy(block, before, sizeof block);
    number = second_step(block, sizeof block, code, a, 0, answer, sizeof answer);
    stayed = memcmp(block, before, sizeof block) == 0;
    if (number != due || get_word(answer) != due)
        return false;
    if (due == DONE && code == CODE_BANKED_WRITE)
        return get_word(answer + 4) == 0 && !stayed;
    return get_word(answer + 4) == (due == DONE ? 0x11111111 : 0) && stayed;
}

/* No. 10: each A read and written from one mode. */
static void run_reacher(const struct reacher *reacher)
{
    unsigned accesses = 0;

    for (uint32_t a = 0; a < 64; a++) {
        accesses += reaches(reacher, CODE_BANKED_READ, a);
        accesses += reaches(reacher, CODE_BANKED_WRITE, a);
    }
    printf("%-13s %u accesses as due", reacher->name, accesses);
    tell(accesses == 128);
}

/* No. 10: "Old traces that show 7 where 17 now stands are WRONG_STEP", and no less those that show 17 where 7 stays. */
static void run_denied_trace(const struct worked_case *worked, enum layout layout)
{
    const uint32_t other = worked->number == NO_RIGHT ? OWN_REGISTER : NO_RIGHT;
    uint8_t trace[ONE_LENGTH];

    record_stayed(trace, layout, worked, other);
    run_one(other == NO_RIGHT ? "7 for 17" : "17 for 7", trace, layout, WRONG_STEP);
    record_stayed(trace, layout, worked, worked->number);
    run_one(other == NO_RIGHT ? "17" : "7", trace, layout, DONE);
}

static void run_denials(void)
{
    for (size_t i = 0; i < DENIED_CASE_COUNT; i++) {
        run_case(&DENIED_CASES[i]);
        if (DENIED_CASES[i].number != NO_RIGHT && DENIED_CASES[i].number != OWN_REGISTER)
            continue;
        run_denied_trace(&DENIED_CASES[i], OLD_LAYOUT);
        run_denied_trace(&DENIED_CASES[i], NEW_LAYOUT);
    }
    for (size_t i = 0; i < sizeof REACHERS / sizeof REACHERS[0]; i++)
        run_reacher(&REACHERS[i]);
}

/* No. 11: debug aborts by hand, and what stands beside them; the table below has every mode. */
static const struct worked_case DEBUG_CASES[] = {
    { .name = "svc, TDE 1", /* "goes to Hyp, at 0x14" */
      .start = { [SCR] = SCR_NS, [HDCR] = HDCR_TDE, [CPSR] = 0x13, [PC] = 0x8000, [HVBAR] = 0x20000000 },
      .code = CODE_PREFETCH_ABORT, .a = ABORT_DEBUG, .value = 0x1A14,
      .after = { { CPSR, 0x1DA }, { SPSR_hyp, 0x13 }, { ELR_hyp, 0x8000 }, { PC, 0x20000014 } }, .named = 4 },
    { .name = "User, TDE 1", /* with T 1: "Hyp writes ELR_hyp with nothing added" */
      .start = { [SCR] = SCR_NS, [HDCR] = HDCR_TDE, [CPSR] = 0x30, [PC] = 0x8002 },
      .code = CODE_PREFETCH_ABORT, .a = ABORT_DEBUG, .value = 0x1A14,
      .after = { { CPSR, 0x1DA }, { SPSR_hyp, 0x30 }, { ELR_hyp, 0x8002 }, { HDCR, HDCR_TDE } }, .named = 4 },
    { .name = "svc, TDE 0", /* "else as before": as with A 0 */
      .start = { [SCR] = SCR_NS, [CPSR] = 0x13, [PC] = 0x8000, [VBAR_NS] = 0x10000000 },
      .code = CODE_PREFETCH_ABORT, .a = ABORT_DEBUG, .value = 0x170C,
      .after = { { CPSR, 0x197 }, { SPSR_abt, 0x13 }, { LR_abt, 0x8004 }, { PC, 0x1000000C } }, .named = 4 },
    { .name = "all but TDE", /* the other bits of HDCR steer nothing */
      .start = { [SCR] = SCR_NS, [HDCR] = 0xFFFFFEFF, [CPSR] = 0x13, [PC] = 0x8000, [VBAR_NS] = 0x10000000 },
      .code = CODE_PREFETCH_ABORT, .a = ABORT_DEBUG, .value = 0x170C,
      .after = { { CPSR, 0x197 }, { LR_abt, 0x8004 }, { PC, 0x1000000C }, { HDCR, 0xFFFFFEFF } }, .named = 4 },
    { .name = "User, TGE 1", /* "else as before": to Hyp by TGE */
      .start = { [SCR] = SCR_NS, [HCR] = HCR_TGE, [CPSR] = 0x10, [PC] = 0x8000 },
      .code = CODE_PREFETCH_ABORT, .a = ABORT_DEBUG, .value = 0x1A14,
      .after = { { CPSR, 0x1DA }, { ELR_hyp, 0x8000 } }, .named = 2 },
    { .name = "Hyp, TDE 1", /* from Hyp itself at its own offset */
      .start = { [SCR] = SCR_NS, [HDCR] = HDCR_TDE, [CPSR] = 0x1A, [PC] = 0x8000 },
      .code = CODE_PREFETCH_ABORT, .a = ABORT_DEBUG, .value = 0x1A0C,
      .after = { { CPSR, 0x1DA }, { ELR_hyp, 0x8000 } }, .named = 2 },
    { .name = "Secure svc", /* neither "Non-secure User" nor "NS EL1" */
      .start = { [HDCR] = HDCR_TDE, [CPSR] = 0x13, [PC] = 0x8000, [VBAR_S] = 0x40000000 },
      .code = CODE_PREFETCH_ABORT, .a = ABORT_DEBUG, .value = 0x170C,
      .after = { { CPSR, 0x197 }, { LR_abt, 0x8004 }, { PC, 0x4000000C } }, .named = 3 },
    { .name = "Monitor, NS", /* Secure, whatever NS says */
      .start = { [SCR] = SCR_NS, [HDCR] = HDCR_TDE, [CPSR] = 0x16, [PC] = 0x8000, [VBAR_S] = 0x40000000 },
      .code = CODE_PREFETCH_ABORT, .a = ABORT_DEBUG, .value = 0x170C,
      .after = { { SCR, 0 }, { LR_abt, 0x8004 }, { PC, 0x4000000C } }, .named = 3 },
    { .name = "EA 1, TDE 1", /* not external: not to Monitor; Hyp leaves A as it is with EA 1 */
      .start = { [SCR] = SCR_NS | SCR_EA, [HDCR] = HDCR_TDE, [CPSR] = 0x13, [PC] = 0x8000 },
      .code = CODE_PREFETCH_ABORT, .a = ABORT_DEBUG, .value = 0x1A14,
      .after = { { CPSR, 0xDA } }, .named = 1 },
    { .name = "EA 1, TDE 0",
      .start = { [SCR] = SCR_NS | SCR_EA, [CPSR] = 0x13, [PC] = 0x8000 },
      .code = CODE_PREFETCH_ABORT, .a = ABORT_DEBUG, .value = 0x170C,
      .after = { { CPSR, 0x197 } }, .named = 1 },
    { .name = "A 0", /* no debug: TDE plays no part */
      .start = { [SCR] = SCR_NS, [HDCR] = HDCR_TDE, [CPSR] = 0x13, [PC] = 0x8000 },
      .code = CODE_PREFETCH_ABORT, .value = 0x170C,
      .after = { { CPSR, 0x197 } }, .named = 1 },
    { .name = "A 1",
      .start = { [SCR] = SCR_NS, [HDCR] = HDCR_TDE, [CPSR] = 0x13, [PC] = 0x8000 },
      .code = CODE_PREFETCH_ABORT, .a = ABORT_EXTERNAL, .value = 0x170C,
      .after = { { CPSR, 0x197 } }, .named = 1 },
    { .name = "code 6, A 0",
      .start = { [SCR] = SCR_NS, [HDCR] = HDCR_TDE, [CPSR] = 0x13, [PC] = 0x8000 },
      .code = CODE_DATA_ABORT, .value = 0x1710,
      .after = { { CPSR, 0x197 } }, .named = 1 },
    { .name = "A 5", /* "4 with 1 or 2 is BAD_EVENT" */
      .start = { [SCR] = SCR_NS, [HDCR] = HDCR_TDE, [CPSR] = 0x13, [PC] = 0x8000 },
      .code = CODE_PREFETCH_ABORT, .a = 5, .number = BAD_EVENT, .unchanged = true },
    { .name = "A 6",
      .start = { [SCR] = SCR_NS, [HDCR] = HDCR_TDE, [CPSR] = 0x13, [PC] = 0x8000 },
      .code = CODE_PREFETCH_ABORT, .a = 6, .number = BAD_EVENT, .unchanged = true },
    { .name = "A 7",
      .start = { [SCR] = SCR_NS, [HDCR] = HDCR_TDE, [CPSR] = 0x13, [PC] = 0x8000 },
      .code = CODE_PREFETCH_ABORT, .a = 7, .number = BAD_EVENT, .unchanged = true },
    { .name = "A 8",
      .start = { [SCR] = SCR_NS, [HDCR] = HDCR_TDE, [CPSR] = 0x13, [PC] = 0x8000 },
      .code = CODE_PREFETCH_ABORT, .a = 8, .number = BAD_EVENT, .unchanged = true },
    { .name = "A 4, B 1",
      .start = { [SCR] = SCR_NS, [HDCR] = HDCR_TDE, [CPSR] = 0x13, [PC] = 0x8000 },
      .code = CODE_PREFETCH_ABORT, .a = ABORT_DEBUG, .b = 1, .number = BAD_EVENT, .unchanged = true },
    { .name = "code 6, A 4", /* "Prefetch Abort's A gains 4", and no other */
      .start = { [SCR] = SCR_NS, [HDCR] = HDCR_TDE, [CPSR] = 0x13, [PC] = 0x8000 },
      .code = CODE_DATA_ABORT, .a = 4, .number = BAD_EVENT, .unchanged = true },
    { .name = "svc, TGE 1", /* not good: BAD_STATE */
      .start = { [SCR] = SCR_NS, [HCR] = HCR_TGE, [HDCR] = HDCR_TDE, [CPSR] = 0x13, [PC] = 0x8000 },
      .code = CODE_PREFETCH_ABORT, .a = ABORT_DEBUG, .number = BAD_STATE, .unchanged = true },
    { .name = "note, place 44", /* "The block gains place 44": any word of it leaves a good block */
      .start = { [SCR] = SCR_NS, [CPSR] = 0x13, [PC] = 0x8000 },
      .code = CODE_NOTE, .a = 44, .b = UINT32_MAX,
      .after = { { HDCR, UINT32_MAX }, { MVBAR, 0 }, { PC, 0x8000 } }, .named = 3 },
    { .name = "note, B 0",
      .start = { [SCR] = SCR_NS, [HDCR] = UINT32_MAX, [CPSR] = 0x13, [PC] = 0x8000 },
      .code = CODE_NOTE, .a = 44,
      .after = { { HDCR, 0 }, { MVBAR, 0 }, { PC, 0x8000 } }, .named = 3 },
    { .name = "note, place 45",
      .start = { [SCR] = SCR_NS, [CPSR] = 0x13, [PC] = 0x8000 },
      .code = CODE_NOTE, .a = 45, .number = BAD_EVENT, .unchanged = true },
};

/* No. 11: how many by hand. */
#define DEBUG_CASE_COUNT (sizeof DEBUG_CASES / sizeof DEBUG_CASES[0])

/* No. 11: where a debug abort goes. */
enum debug_outcome {
    ABORT_0C = 0x170C,
    OTHER_14 = 0x1A14, /* to Hyp, from another mode */
    ITSELF_0C = 0x1A0C /* to Hyp, from Hyp */
};

/* No. 11: from every mode, Secure and Non-secure, by TDE. */
static const struct debugged {
    const char *name;
    uint32_t mode, scr, hcr;
    enum debug_outcome due[2];
} DEBUGGED[] = {
    { "User",          MODE_USER,       0,      0,       { ABORT_0C, ABORT_0C } },
    { "User, TGE 1",   MODE_USER,       0,      HCR_TGE, { ABORT_0C, ABORT_0C } },
    { "FIQ",           MODE_FIQ,        0,      0,       { ABORT_0C, ABORT_0C } },
    { "IRQ",           MODE_IRQ,        0,      0,       { ABORT_0C, ABORT_0C } },
    { "Supervisor",    MODE_SUPERVISOR, 0,      0,       { ABORT_0C, ABORT_0C } },
    { "Monitor",       MODE_MONITOR,    0,      0,       { ABORT_0C, ABORT_0C } },
    { "Abort",         MODE_ABORT,      0,      0,       { ABORT_0C, ABORT_0C } },
    { "Undefined",     MODE_UNDEFINED,  0,      0,       { ABORT_0C, ABORT_0C } },
    { "System",        MODE_SYSTEM,     0,      0,       { ABORT_0C, ABORT_0C } },
    { "NS User",       MODE_USER,       SCR_NS, 0,       { ABORT_0C, OTHER_14 } },
    { "NS User, TGE",  MODE_USER,       SCR_NS, HCR_TGE, { OTHER_14, OTHER_14 } },
    { "NS FIQ",        MODE_FIQ,        SCR_NS, 0,       { ABORT_0C, OTHER_14 } },
    { "NS IRQ",        MODE_IRQ,        SCR_NS, 0,       { ABORT_0C, OTHER_14 } },
    { "NS Supervisor", MODE_SUPERVISOR, SCR_NS, 0,       { ABORT_0C, OTHER_14 } },
    { "NS Monitor",    MODE_MONITOR,    SCR_NS, 0,       { ABORT_0C, ABORT_0C } },
    { "NS Abort",      MODE_ABORT,      SCR_NS, 0,       { ABORT_0C, OTHER_14 } },
    { "Hyp",           MODE_HYP,        SCR_NS, 0,       { ITSELF_0C, ITSELF_0C } },
    { "NS Undefined",  MODE_UNDEFINED,  SCR_NS, 0,       { ABORT_0C, OTHER_14 } },
    { "NS System",     MODE_SYSTEM,     SCR_NS, 0,       { ABORT_0C, OTHER_14 } },
};

/* No. 11: the block of a mode, with a word in each other place. */
static void put_debugged(uint8_t *block, const struct debugged *debugged, uint32_t hdcr)
{
    for (uint32_t place = 0; place < PLACES; place++)
        put_word(block + 4 * place, 0x1000 * place);
    put_word(block + 4 * CPSR, debugged->mode);
    put_word(block + 4 * SCR, debugged->scr);
    put_word(block + 4 * HCR, debugged->hcr);
    put_word(block + 4 * HDCR, hdcr);
}

/* No. 11: whether a debug abort goes where it is due; "else as before" is, in every byte, as with A 0. */
static bool is_routed(const struct debugged *debugged, uint32_t tde)
{
    const bool as_before = debugged->due[tde] == debugged->due[0];
    uint8_t block[BLOCK_SIZE], with_a_0[BLOCK_SIZE];
    struct pomurica_answer answer;

    put_debugged(block, debugged, tde * HDCR_TDE);
    put_debugged(with_a_0, debugged, tde * HDCR_TDE);
    answer = answer_of(block, (struct pomurica_event){ CODE_PREFETCH_ABORT, ABORT_DEBUG, 0 });
    answer_of(with_a_0, (struct pomurica_event){ CODE_PREFETCH_ABORT, 0, 0 });
    return answer.number == DONE && answer.value == (uint32_t)debugged->due[tde] &&
           as_before == (memcmp(block, with_a_0, sizeof block) == 0);
}

/* No. 11: whether an event comes to the same with every bit of HDCR 0 and 1, and leaves them. */
static bool is_blind(const struct debugged *debugged, struct pomurica_event event)
{
    uint8_t block[BLOCK_SIZE], other[BLOCK_SIZE];
    struct pomurica_answer answer, of_other;

    put_debugged(block, debugged, 0);
    put_debugged(other, debugged, UINT32_MAX);
    answer = answer_of(block, event);
    of_other = answer_of(other, event);
    return memcmp(&answer, &of_other, sizeof answer) == 0 && memcmp(block, other, OLD_BLOCK_SIZE) == 0 &&
           get_word(block + 4 * HDCR) == 0 && get_word(other + 4 * HDCR) == UINT32_MAX;
}

/* No. 11: all events but debug and a note on place 44: each code with each A from 0 to 63. */
static void run_debugged(const struct debugged *debugged)
{
    unsigned routed = 0, blind = 0;

    routed += is_routed(debugged, 0);
    routed += is_routed(debugged, 1);
    for (uint32_t code = 0; code <= CODES; code++) {
        for (uint32_t a = 0; a < 64; a++) {
            const bool named = (code == CODE_PREFETCH_ABORT && a == ABORT_DEBUG) || (code == CODE_NOTE && a == HDCR);

            blind += !named && is_blind(debugged, (struct pomurica_event){ code, a, 0 });
        }
    }
    printf("%-13s %u as due, %u others", debugged->name, routed, blind);
    tell(routed == 2 && blind == (CODES + 1) * 64 - 2);
}

/* No. 11: "176 is now BAD_SIZE", as any size but 180: neither buffer changes. */
static void run_block_size(size_t block_len)
{
    uint8_t before[BLOCK_SIZE + 1] = { 0 }, block[BLOCK_SIZE + 1], answer[ANSWER_SIZE];
    uint32_t number;

    put_first_block(before, MODE_SUPERVISOR);
    memcpy(block, before, sizeof block);
    memset(answer, OLD_BYTE, sizeof answer);
    number = second_step(block, block_len, CODE_SVC, 0, 0, answer, sizeof answer);
    printf("%-12s  number %u, of %u bytes", "block", (unsigned)number, (unsigned)block_len);
    tell(number == BAD_SIZE && memcmp(block, before, sizeof block) == 0 && are_old(answer, sizeof answer));
}

/* No. 11: what a Step may show, with a block that stays: in an old one "debug and notes on place 44 are BAD_EVENT". */
static const struct shown {
    struct worked_case step;
    uint32_t due[LAYOUTS];
} SHOWN[] = {
    { { .name = "debug, 4", .start = { [SCR] = SCR_NS, [CPSR] = 0x13 },
        .code = CODE_PREFETCH_ABORT, .a = ABORT_DEBUG, .number = BAD_EVENT },
      { [OLD_LAYOUT] = DONE, [NEW_LAYOUT] = WRONG_STEP } },
    { { .name = "TDE 1, 4", .start = { [SCR] = SCR_NS, [CPSR] = 0x13, [HDCR] = HDCR_TDE },
        .code = CODE_PREFETCH_ABORT, .a = ABORT_DEBUG, .number = BAD_EVENT },
      { [OLD_LAYOUT] = DONE, [NEW_LAYOUT] = WRONG_STEP } },
    { { .name = "Hyp, 4", .start = { [SCR] = SCR_NS, [CPSR] = 0x1A },
        .code = CODE_PREFETCH_ABORT, .a = ABORT_DEBUG, .number = BAD_EVENT },
      { [OLD_LAYOUT] = DONE, [NEW_LAYOUT] = WRONG_STEP } },
    { { .name = "note 44, 4", .start = { [SCR] = SCR_NS, [CPSR] = 0x13 },
        .code = CODE_NOTE, .a = 44, .number = BAD_EVENT },
      { [OLD_LAYOUT] = DONE, [NEW_LAYOUT] = WRONG_STEP } },
    { { .name = "note 44, B 1", .start = { [SCR] = SCR_NS, [CPSR] = 0x13 },
        .code = CODE_NOTE, .a = 44, .b = 1, .number = BAD_EVENT },
      { [OLD_LAYOUT] = DONE, [NEW_LAYOUT] = WRONG_STEP } },
    { { .name = "note 44, 0", .start = { [SCR] = SCR_NS, [CPSR] = 0x13 },
        .code = CODE_NOTE, .a = 44, .number = DONE },
      { [OLD_LAYOUT] = WRONG_STEP, [NEW_LAYOUT] = DONE } },
    { { .name = "note 43, 0", .start = { [SCR] = SCR_NS, [CPSR] = 0x13 },
        .code = CODE_NOTE, .a = 43, .number = DONE },
      { [OLD_LAYOUT] = DONE, [NEW_LAYOUT] = DONE } },
    { { .name = "note 45, 4", .start = { [SCR] = SCR_NS, [CPSR] = 0x13 },
        .code = CODE_NOTE, .a = 45, .number = BAD_EVENT },
      { [OLD_LAYOUT] = DONE, [NEW_LAYOUT] = DONE } },
    { { .name = "read 44, 6", .start = { [SCR] = SCR_NS, [CPSR] = 0x13 }, /* A of an access is no place */
        .code = CODE_BANKED_READ, .a = 44, .number = NO_REGISTER },
      { [OLD_LAYOUT] = DONE, [NEW_LAYOUT] = DONE } },
    { { .name = "A 5, 4", .start = { [SCR] = SCR_NS, [CPSR] = 0x13 },
        .code = CODE_PREFETCH_ABORT, .a = 5, .number = BAD_EVENT },
      { [OLD_LAYOUT] = DONE, [NEW_LAYOUT] = DONE } },
    { { .name = "return 44, 3", .start = { [SCR] = SCR_NS, [CPSR] = 0x13, [SPSR_svc] = 1 << 21 | 0x10 }, /* nor here */
        .code = CODE_RETURN, .a = 44, .number = BAD_STATE },
      { [OLD_LAYOUT] = DONE, [NEW_LAYOUT] = DONE } },
    { { .name = "code 6, 4", .start = { [SCR] = SCR_NS, [CPSR] = 0x13 },
        .code = CODE_DATA_ABORT, .a = 4, .number = BAD_EVENT },
      { [OLD_LAYOUT] = DONE, [NEW_LAYOUT] = DONE } },
    /* The block's own numbers are the lower. */
    { { .name = "no mode, 2", .start = { [SCR] = SCR_NS, [CPSR] = 0x14 },
        .code = CODE_PREFETCH_ABORT, .a = ABORT_DEBUG, .number = BAD_MODE },
      { [OLD_LAYOUT] = DONE, [NEW_LAYOUT] = DONE } },
    { { .name = "no mode, 4", .start = { [SCR] = SCR_NS, [CPSR] = 0x14 },
        .code = CODE_NOTE, .a = 44, .number = BAD_EVENT },
      { [OLD_LAYOUT] = WRONG_STEP, [NEW_LAYOUT] = WRONG_STEP } },
    { { .name = "not good, 3", .start = { [CPSR] = 0x1A },
        .code = CODE_NOTE, .a = 44, .number = BAD_STATE },
      { [OLD_LAYOUT] = DONE, [NEW_LAYOUT] = DONE } },
};

static void run_shown(const struct shown *shown, enum layout layout)
{
    uint8_t trace[ONE_LENGTH];

    record_stayed(trace, layout, &shown->step, shown->step.number);
    run_one(shown->step.name, trace, layout, shown->due[layout]);
}

/* No. 11: a case as a direct step does it: right in a new trace, with that HDCR alone; in an old one without debug. */
static void run_debug_trace(const struct worked_case *worked)
{
    const bool is_old = worked->code != CODE_NOTE && worked->a != ABORT_DEBUG;
    uint8_t trace[ONE_LENGTH];

    record_turned(trace, OLD_LAYOUT, worked, 0);
    run_one("as an old one", trace, OLD_LAYOUT, is_old ? DONE : WRONG_STEP);
    record_turned(trace, NEW_LAYOUT, worked, 0);
    run_one("as a new one", trace, NEW_LAYOUT, DONE);
    trace[place_of(NEW_LAYOUT, 1) - 3] ^= HDCR_TDE >> 8;
    run_one("HDCR turned", trace, NEW_LAYOUT, WRONG_STEP);
}

static void run_debug_cases(void)
{
    for (size_t i = 0; i < DEBUG_CASE_COUNT; i++) {
        run_case(&DEBUG_CASES[i]);
        if (DEBUG_CASES[i].number == DONE)
            run_debug_trace(&DEBUG_CASES[i]);
    }
}

/* No. 11: a trace of two refused Steps from a block without a known mode, each record in a layout of its own. */
static size_t record_mixed(uint8_t *trace, enum layout start, enum layout first, enum layout second)
{
    const struct pomurica_answer answer = { BAD_MODE, 0 };
    const uint8_t block[BLOCK_SIZE] = { 0 };
    uint8_t *record = trace;

    put_start(record, start, 2, block);
    record += LAYOUT[start].start;
    put_step(record, first, UNKNOWN, answer, block);
    record += LAYOUT[first].step;
    put_step(record, second, UNKNOWN, answer, block);
    record += LAYOUT[second].step;
    put_end(record, 2);
    return (size_t)(record + END_LENGTH - trace);
}

enum {
    TWO_LENGTH = START_LENGTH + 2 * STEP_LENGTH + END_LENGTH
};

/* No. 11: "A trace that mixes the two is BAD_RECORD", at the record not due; No. 6: known with its fourth byte. */
static void run_mixed(enum layout layout, enum layout other)
{
    const uint32_t first = place_of(layout, 0), second = place_of(layout, 1), whole = length_of(layout, 2);
    uint8_t trace[TWO_LENGTH];
    size_t length;

    length = record_mixed(trace, layout, layout, layout);
    run_trace("not mixed", trace, length, DONE, whole, 2);
    run_known("not mixed", trace, length, length, DONE, whole, 2);
    length = record_mixed(trace, layout, other, other);
    run_trace("Start alone", trace, length, BAD_RECORD, first, 0);
    run_known("Start alone", trace, length, first + 3, BAD_RECORD, first, 0);
    length = record_mixed(trace, layout, other, layout);
    run_trace("first Step", trace, length, BAD_RECORD, first, 0);
    run_known("first Step", trace, length, first + 3, BAD_RECORD, first, 0);
    length = record_mixed(trace, layout, layout, other);
    run_trace("last Step", trace, length, BAD_RECORD, second, 1);
    run_known("last Step", trace, length, second + 3, BAD_RECORD, second, 1);
}

/* No. 11: whether the trace is BAD_RECORD at this place, and a session knows it with the fourth byte there. */
static bool is_bad_record(const uint8_t *trace, size_t length, uint32_t place)
{
    const uint32_t before = place + HEADER_SIZE - 1;
    struct pomurica_session session;
    uint8_t report[REPORT_SIZE];
    bool known;

    second_open(&session);
    known = second_feed(&session, trace, before) == DONE && second_feed(&session, trace + before, 1) == BAD_RECORD;
    second_check(trace, length, report, sizeof report);
    return known && get_word(report) == BAD_RECORD && get_word(report + 4) == place;
}

/* No. 11: "length or kind not the one due" is BAD_RECORD: each length with each kind, and two beside, but those due. */
static void run_headers(const char *name, enum layout layout, uint32_t place, const uint32_t due[2])
{
    static const uint32_t LENGTHS[] = { 184, 188, 200, 204, 8 };
    uint8_t trace[TWO_LENGTH];
    unsigned bad = 0;

    for (uint32_t i = 0; i < 5; i++) {
        for (uint32_t kind = 0; kind < 7; kind++) {
            const size_t length = record_mixed(trace, layout, layout, layout);
            const uint32_t header = LENGTHS[i] | kind << 16;

            put_word(trace + place, header);
            bad += is_bad_record(trace, length, place) == (header != due[0] && header != due[1]);
        }
    }
    printf("%-12s  %u headers as due", name, bad);
    tell(bad == 35);
}

/* No. 11: a Start may be of either layout, a Step of the Start's; the End is in both the same. */
static void run_all_headers(void)
{
    static const uint32_t STARTS[2] = { 184 | 1 << 16, 188 | 4 << 16 };
    static const uint32_t OLD_STEP[2] = { 200 | 2 << 16, 200 | 2 << 16 };
    static const uint32_t NEW_STEP[2] = { 204 | 5 << 16, 204 | 5 << 16 };
    static const uint32_t ENDS[2] = { 8 | 3 << 16, 8 | 3 << 16 };

    run_headers("old Start", OLD_LAYOUT, 0, STARTS);
    run_headers("new Start", NEW_LAYOUT, 0, STARTS);
    run_headers("old Step", OLD_LAYOUT, place_of(OLD_LAYOUT, 1), OLD_STEP);
    run_headers("new Step", NEW_LAYOUT, place_of(NEW_LAYOUT, 1), NEW_STEP);
    run_headers("old End", OLD_LAYOUT, place_of(OLD_LAYOUT, 2), ENDS);
    run_headers("new End", NEW_LAYOUT, place_of(NEW_LAYOUT, 2), ENDS);
}

/* No. 11: a list that begins in Non-secure Supervisor, with TDE 0. */
static const struct pomurica_event DEBUGGING[] = {
    { CODE_PREFETCH_ABORT, ABORT_DEBUG, 0 },
    { CODE_NOTE, HDCR, HDCR_TDE },
    { CODE_PREFETCH_ABORT, ABORT_DEBUG, 0 },
    { CODE_PREFETCH_ABORT, ABORT_DEBUG | ABORT_EXTERNAL, 0 },
    { CODE_PREFETCH_ABORT, ABORT_DEBUG, 0 },
    { CODE_NOTE, PLACES, 0 },
};

enum {
    DEBUGGING_STEPS = sizeof DEBUGGING / sizeof DEBUGGING[0],
    DEBUGGING_LENGTH = START_LENGTH + DEBUGGING_STEPS * STEP_LENGTH + END_LENGTH
};

static const struct pomurica_answer DEBUGGING_ANSWERS[DEBUGGING_STEPS] = {
    { DONE, 0x170C }, /* enters Abort mode */
    { DONE, 0 },
    { DONE, 0x1A14 }, /* enters Hyp mode */
    { BAD_EVENT, 0 },
    { DONE, 0x1A0C }, /* from Hyp */
    { BAD_EVENT, 0 },
};

/* No. 11, No. 1: what they are counted as; in an old trace none of them is done. */
static const char DEBUGGING_COUNTS[] = "1 5 4\n1 12 2\n2 0 4\n2 4 2\n3 23 1\n3 26 2\n";
static const char REFUSED_COUNTS[] = "1 5 4\n1 12 2\n2 4 6\n";

/* No. 11, No. 2. */
static void run_debugging_batch(void)
{
    struct pomurica_answer answers[DEBUGGING_STEPS];
    uint8_t block[BLOCK_SIZE];
    uint32_t number;

    put_first_block(block, MODE_SUPERVISOR);
    number = second_batch(DEBUGGING, DEBUGGING_STEPS, answers, DEBUGGING_STEPS, block, sizeof block);
    printf("%-12s  number %u, HDCR 0x%X", "batch", (unsigned)number, (unsigned)get_word(block + 4 * HDCR));
    tell(number == DONE && memcmp(answers, DEBUGGING_ANSWERS, sizeof answers) == 0 &&
         get_word(block + 4 * HDCR) == HDCR_TDE);
}

/* No. 11, No. 7: whether the list as recorded has new records, these answers, and HDCR from the note on. */
static bool shows_debugging(const uint8_t *trace)
{
    bool right = get_word(trace) == (188 | 4 << 16) && get_word(trace + 188 - 4) == 0;

    for (uint32_t i = 0; i < DEBUGGING_STEPS; i++) {
        const uint8_t *step = trace + 188 + 204 * i;

        right = right && get_word(step) == (204 | 5 << 16) && get_word(step + 204 - 4) == (i == 0 ? 0 : HDCR_TDE) &&
                get_word(step + STEP_ANSWER) == DEBUGGING_ANSWERS[i].number &&
                get_word(step + STEP_VALUE) == DEBUGGING_ANSWERS[i].value;
    }
    return right && get_word(trace + 188 + 204 * DEBUGGING_STEPS) == (8 | 3 << 16);
}

/* No. 11, No. 7, No. 6, No. 1: the list recorded, checked at once and as it arrives, and counted. */
static void run_debugging_trace(void)
{
    uint8_t block[BLOCK_SIZE], trace[DEBUGGING_LENGTH], counts[COUNTS_SIZE] = { 0 };
    uint32_t number;

    put_first_block(block, MODE_SUPERVISOR);
    number = second_record(block, sizeof block, DEBUGGING, DEBUGGING_STEPS, trace, sizeof trace, 0);
    printf("%-12s  number %u, %u bytes", "record", (unsigned)number, (unsigned)sizeof trace);
    tell(number == DONE && shows_debugging(trace));
    run_trace("trace", trace, sizeof trace, DONE, DEBUGGING_LENGTH, DEBUGGING_STEPS);
    run_known("session", trace, sizeof trace, sizeof trace, DONE, DEBUGGING_LENGTH, DEBUGGING_STEPS);
    run_count("counts", trace, sizeof trace, counts, DONE);
    run_lines("counts", counts, DEBUGGING_COUNTS);
}

/* No. 11: the same list in an old trace: each of its events is BAD_EVENT there. */
static void run_old_debugging(void)
{
    const struct pomurica_answer refused = { BAD_EVENT, 0 };
    const uint32_t length = length_of(OLD_LAYOUT, DEBUGGING_STEPS);
    uint8_t block[BLOCK_SIZE], trace[DEBUGGING_LENGTH], counts[COUNTS_SIZE] = { 0 };

    put_first_block(block, MODE_SUPERVISOR);
    put_start(trace, OLD_LAYOUT, DEBUGGING_STEPS, block);
    for (uint32_t i = 0; i < DEBUGGING_STEPS; i++)
        put_step(trace + place_of(OLD_LAYOUT, i), OLD_LAYOUT, DEBUGGING[i], refused, block);
    put_end(trace + place_of(OLD_LAYOUT, DEBUGGING_STEPS), DEBUGGING_STEPS);
    run_trace("old trace", trace, length, DONE, length, DEBUGGING_STEPS);
    run_known("old session", trace, length, length, DONE, length, DEBUGGING_STEPS);
    run_count("old counts", trace, length, counts, DONE);
    run_lines("old counts", counts, REFUSED_COUNTS);
}

static void run_layouts(void)
{
    static const size_t SIZES[] = {
        0, OLD_BLOCK_SIZE - 1, OLD_BLOCK_SIZE, OLD_BLOCK_SIZE + 1, BLOCK_SIZE - 1, BLOCK_SIZE + 1
    };

    run_debug_cases();
    for (size_t i = 0; i < sizeof DEBUGGED / sizeof DEBUGGED[0]; i++)
        run_debugged(&DEBUGGED[i]);
    for (size_t i = 0; i < sizeof SIZES / sizeof SIZES[0]; i++)
        run_block_size(SIZES[i]);
    for (size_t i = 0; i < sizeof SHOWN / sizeof SHOWN[0]; i++) {
        run_shown(&SHOWN[i], OLD_LAYOUT);
        run_shown(&SHOWN[i], NEW_LAYOUT);
    }
    run_mixed(OLD_LAYOUT, NEW_LAYOUT);
    run_mixed(NEW_LAYOUT, OLD_LAYOUT);
    run_all_headers();
    run_debugging_batch();
    run_debugging_trace();
    run_old_debugging();
}

/* No. 13: both virtual lines. */
#define VIRTUAL_LINES (LINE_VFIQ | LINE_VIRQ)

/* No. 13: direct steps: a line retired, and "signals guests through HCR.VI and VF alone". */
static const struct worked_case LINE_CASES[] = {
    { .name = "line 8",
      .start = { [SCR] = SCR_NS, [HCR] = OVERRIDES, [CPSR] = 0x13, [PC] = 0x8000 },
      .code = CODE_INTERRUPT_CHECK, .a = LINE_VFIQ, .number = BAD_EVENT, .unchanged = true },
    { .name = "line 16",
      .start = { [SCR] = SCR_NS, [HCR] = OVERRIDES, [CPSR] = 0x13, [PC] = 0x8000 },
      .code = CODE_INTERRUPT_CHECK, .a = LINE_VIRQ, .number = BAD_EVENT, .unchanged = true },
    { .name = "lines 8, 16",
      .start = { [SCR] = SCR_NS, [HCR] = OVERRIDES, [CPSR] = 0x13, [PC] = 0x8000 },
      .code = CODE_INTERRUPT_CHECK, .a = LINE_VFIQ | LINE_VIRQ, .number = BAD_EVENT, .unchanged = true },
    { .name = "lines 4, 16", /* also beside a line that would be taken */
      .start = { [SCR] = SCR_NS, [CPSR] = 0x13, [PC] = 0x8000 },
      .code = CODE_INTERRUPT_CHECK, .a = LINE_IRQ | LINE_VIRQ, .number = BAD_EVENT, .unchanged = true },
    { .name = "Secure, 8", /* also where none is pending */
      .start = { [CPSR] = 0x13, [PC] = 0x8000 },
      .code = CODE_INTERRUPT_CHECK, .a = LINE_VFIQ, .number = BAD_EVENT, .unchanged = true },
    { .name = "VI, line 16", /* also where VI would do */
      .start = { [SCR] = SCR_NS, [HCR] = HCR_IMO | HCR_VI, [CPSR] = 0x13, [PC] = 0x8000 },
      .code = CODE_INTERRUPT_CHECK, .a = LINE_VIRQ, .number = BAD_EVENT, .unchanged = true },
    { .name = "no mode, 8", /* the block's own numbers are the lower */
      .start = { [SCR] = SCR_NS, [CPSR] = 0x14 },
      .code = CODE_INTERRUPT_CHECK, .a = LINE_VFIQ, .number = BAD_MODE, .unchanged = true },
    { .name = "not good, 16",
      .start = { [CPSR] = 0x1A },
      .code = CODE_INTERRUPT_CHECK, .a = LINE_VIRQ, .number = BAD_STATE, .unchanged = true },
    { .name = "VF",
      .start = { [SCR] = SCR_NS, [HCR] = HCR_FMO | HCR_VF, [CPSR] = 0x13, [PC] = 0x8000, [VBAR_NS] = 0x10000000 },
      .code = CODE_INTERRUPT_CHECK, .value = 0x5111C,
      .after = { { CPSR, 0x1D1 }, { LR_fiq, 0x8004 }, { PC, 0x1000001C }, { HCR, HCR_FMO | HCR_VF } }, .named = 4 },
    { .name = "VI",
      .start = { [SCR] = SCR_NS, [HCR] = HCR_IMO | HCR_VI, [CPSR] = 0x13, [PC] = 0x8000, [VBAR_NS] = 0x10000000 },
      .code = CODE_INTERRUPT_CHECK, .value = 0x61218,
      .after = { { CPSR, 0x192 }, { LR_irq, 0x8004 }, { PC, 0x10000018 }, { HCR, HCR_IMO | HCR_VI } }, .named = 4 },
    { .name = "read, A 16", /* of another event it is no line */
      .start = { [SCR] = SCR_NS, [CPSR] = 0x13, [LR_irq] = 0x600DCAFE },
      .code = CODE_BANKED_READ, .a = 16, .value = 0x600DCAFE, .unchanged = true },
};

/* No. 13: how many of our own. */
#define LINE_CASE_COUNT (sizeof LINE_CASES / sizeof LINE_CASES[0])

/* The interrupt check: the sources of lines, "VF or line 8; VI or line 16". */
static uint32_t sources_of(uint32_t lines)
{
    return ((lines & LINE_VFIQ) != 0 ? HCR_VF : 0) | ((lines & LINE_VIRQ) != 0 ? HCR_VI : 0);
}

/* The trace: a check as both lines have it: a direct one with their sources set, and then as they were. */
static void record_lines(uint8_t *trace, enum layout layout, const uint8_t *before, uint32_t lines)
{
    const struct pomurica_event check = { CODE_INTERRUPT_CHECK, lines & ~(uint32_t)VIRTUAL_LINES, 0 };
    const uint32_t more = sources_of(lines) & ~get_word(before + 4 * HCR);
    uint8_t after[BLOCK_SIZE];
    struct pomurica_answer answer;

    memcpy(after, before, sizeof after);
    put_word(after + 4 * HCR, get_word(after + 4 * HCR) | more);
    answer = answer_of(after, check);
    put_word(after + 4 * HCR, get_word(after + 4 * HCR) & ~more);
    record_one(trace, layout, before, (struct pomurica_event){ CODE_INTERRUPT_CHECK, lines, 0 }, answer, after);
}

/* The trace: the same as refused. */
static void record_refused_lines(uint8_t *trace, enum layout layout, const uint8_t *before, uint32_t lines)
{
    record_one(trace, layout, before, (struct pomurica_event){ CODE_INTERRUPT_CHECK, lines, 0 },
               (struct pomurica_answer){ BAD_EVENT, 0 }, before);
}

/* The trace: whether one of one Step is judged so. */
static bool is_judged(const uint8_t *trace, enum layout layout, uint32_t number)
{
    uint8_t report[REPORT_SIZE];

    return second_check(trace, length_of(layout, 1), report, sizeof report) == number;
}

/* No. 13: a check with these lines: in an old trace "with both lines"; in a new one, and direct, none is virtual. */
static bool is_by_layout(const uint8_t *block, uint32_t lines)
{
    const bool retired = (lines & VIRTUAL_LINES) != 0;
    uint8_t trace[ONE_LENGTH], direct[BLOCK_SIZE];
    uint32_t number;
    bool right;

    record_lines(trace, OLD_LAYOUT, block, lines);
    right = is_judged(trace, OLD_LAYOUT, DONE);
    record_refused_lines(trace, OLD_LAYOUT, block, lines);
    right = right && is_judged(trace, OLD_LAYOUT, WRONG_STEP);
    record_lines(trace, NEW_LAYOUT, block, lines);
    right = right && is_judged(trace, NEW_LAYOUT, retired ? WRONG_STEP : DONE);
    record_refused_lines(trace, NEW_LAYOUT, block, lines);
    right = right && is_judged(trace, NEW_LAYOUT, retired ? DONE : WRONG_STEP);
    memcpy(direct, block, sizeof direct);
    number = answer_of(direct, (struct pomurica_event){ CODE_INTERRUPT_CHECK, lines, 0 }).number;
    return right && number == (retired ? BAD_EVENT : DONE);
}

/* No. 13: a block that is good, or not, by what steers a virtual exception: M, the sources, TGE, NS and the masks. */
static void put_signalled(uint8_t *block, uint32_t mode, uint32_t choice)
{
    static const uint32_t BITS[] = { HCR_AMO, HCR_FMO, HCR_IMO, HCR_VA, HCR_VF, HCR_VI, HCR_TGE };
    const uint32_t count = sizeof BITS / sizeof BITS[0];
    uint32_t hcr = 0;

    for (uint32_t bit = 0; bit < count; bit++)
        hcr |= (choice >> bit & 1) != 0 ? BITS[bit] : 0;
    put_first_block(block, mode | ((choice >> count & 1) != 0 ? CPSR_A | CPSR_I | CPSR_F : 0));
    put_word(block + 4 * SCR, (choice >> (count + 1) & 1) != 0 ? SCR_NS : 0);
    put_word(block + 4 * HCR, hcr);
}

/* No. 13: every line with every other, from a mode, on each block that is good. */
static void run_signalled(const char *name, uint32_t mode)
{
    unsigned checks = 0, right = 0;

    for (uint32_t choice = 0; choice < 1 << 9; choice++) {
        uint8_t block[BLOCK_SIZE];

        put_signalled(block, mode, choice);
        if (answer_of(block, (struct pomurica_event){ 0, 0, 0 }).number != BAD_EVENT)
            continue;
        for (uint32_t lines = 0; lines < 32; lines++) {
            checks++;
            right += is_by_layout(block, lines);
        }
    }
    printf("%-12s  %u checks, %u as due", name, checks, right);
    tell(checks != 0 && right == checks);
}

/* No. 13, No. 2, No. 7, No. 1: a check with line 16 between two others, in a list, as recorded, and as counted. */
static const struct pomurica_event SIGNALS[] = {
    { CODE_INTERRUPT_CHECK, 0, 0 },
    { CODE_INTERRUPT_CHECK, LINE_VIRQ, 0 },
    { CODE_INTERRUPT_CHECK, LINE_IRQ, 0 },
};
static const struct pomurica_answer SIGNAL_ANSWERS[] = { { DONE, 0 }, { BAD_EVENT, 0 }, { DONE, 0x31218 } };
static const char SIGNAL_COUNTS[] = "1 9 3\n2 0 2\n2 4 1\n3 18 1\n4 0 1\n4 3 1\n";

enum {
    SIGNAL_STEPS = sizeof SIGNALS / sizeof SIGNALS[0],
    SIGNAL_LENGTH = START_LENGTH + SIGNAL_STEPS * STEP_LENGTH + END_LENGTH
};

static void run_signals(void)
{
    uint8_t block[BLOCK_SIZE], trace[SIGNAL_LENGTH], counts[COUNTS_SIZE] = { 0 };
    struct pomurica_answer answers[SIGNAL_STEPS];
    uint32_t number;

    put_first_block(block, MODE_SUPERVISOR);
    number = second_record(block, sizeof block, SIGNALS, SIGNAL_STEPS, trace, sizeof trace, 0);
    run_trace("lines", trace, sizeof trace, DONE, SIGNAL_LENGTH, SIGNAL_STEPS);
    run_count("lines", trace, sizeof trace, counts, DONE);
    run_lines("lines", counts, SIGNAL_COUNTS);
    number += second_batch(SIGNALS, SIGNAL_STEPS, answers, SIGNAL_STEPS, block, sizeof block);
    printf("%-12s  answer %u to line 16", "list", (unsigned)answers[1].number);
    tell(number == DONE && memcmp(answers, SIGNAL_ANSWERS, sizeof answers) == 0);
}

/* No. 13, No. 1: a virtual IRQ by line 16 in an old trace is counted as taken. */
static void run_old_signal(void)
{
    const uint32_t length = length_of(OLD_LAYOUT, 1), end = place_of(NEW_LAYOUT, 1);
    uint8_t block[BLOCK_SIZE], trace[ONE_LENGTH], counts[COUNTS_SIZE] = { 0 };

    put_first_block(block, MODE_SUPERVISOR);
    put_word(block + 4 * HCR, HCR_IMO);
    record_lines(trace, OLD_LAYOUT, block, LINE_VIRQ);
    run_one("old line 16", trace, OLD_LAYOUT, DONE);
    run_known("old line 16", trace, length, length, DONE, length, 1);
    run_count("old line 16", trace, length, counts, DONE);
    run_lines("old line 16", counts, "1 9 1\n2 0 1\n3 18 1\n4 6 1\n");
    record_lines(trace, NEW_LAYOUT, block, LINE_VIRQ);
    run_one("new line 16", trace, NEW_LAYOUT, WRONG_STEP);
    run_known("new line 16", trace, length_of(NEW_LAYOUT, 1), end - 1, WRONG_STEP, place_of(NEW_LAYOUT, 0), 0);
}

static void run_retired(void)
{
    static const struct {
        const char *name;
        uint32_t mode;
    } MODES[] = {
        { "User", MODE_USER }, { "FIQ", MODE_FIQ }, { "IRQ", MODE_IRQ }, { "Supervisor", MODE_SUPERVISOR },
        { "Monitor", MODE_MONITOR }, { "Abort", MODE_ABORT }, { "Hyp", MODE_HYP }, { "Undefined", MODE_UNDEFINED },
        { "System", MODE_SYSTEM },
    };

    for (size_t i = 0; i < LINE_CASE_COUNT; i++)
        run_case(&LINE_CASES[i]);
    for (size_t i = 0; i < sizeof MODES / sizeof MODES[0]; i++)
        run_signalled(MODES[i].name, MODES[i].mode);
    run_signals();
    run_old_signal();
}

/* No. 14: the parts, in the order of their bytes. */
struct instruction {
    uint32_t code, a, condition, reg;
};

/* No. 14: how many of each part there are, of both codes, and so how many of all; "Exactly 28,800" in our readings. */
enum {
    ALL_A = 64,
    ALL_CONDITIONS = 15,
    ALL_REGISTERS = 15,
    ALL_INSTRUCTIONS = 28800
};

static bool is_same_instruction(struct instruction one, struct instruction other)
{
    return one.code == other.code && one.a == other.a && one.condition == other.condition && one.reg == other.reg;
}

/* No. 14: the number of a reading, and the parts that it leaves where there were others. */
static uint32_t read_instruction(uint32_t word, struct instruction *read)
{
    uint8_t parts[PARTS_SIZE];
    uint32_t number;

    memset(parts, 0xAA, sizeof parts);
    number = second_read_instruction(word, parts, sizeof parts);
    *read = (struct instruction){ get_word(parts), get_word(parts + 4), get_word(parts + 8), get_word(parts + 12) };
    return number;
}

/* No. 14: the number of a writing, and the word that it leaves where there was another. */
static uint32_t write_instruction(struct instruction parts, uint32_t *written)
{
    uint8_t word[WORD_SIZE];
    uint32_t number;

    memset(word, 0xAA, sizeof word);
    number = second_write_instruction(parts.code, parts.a, parts.condition, parts.reg, word, sizeof word);
    *written = get_word(word);
    return number;
}

/* No. 14: whether a word is NOT_BANKED, "with the parts [...] 0". */
static bool is_no_instruction(uint32_t word)
{
    struct instruction read;

    return read_instruction(word, &read) == NOT_BANKED && is_same_instruction(read, (struct instruction){ 0, 0, 0, 0 });
}

/* No. 14: whether parts are NOT_BANKED, with "the word 0". */
static bool are_no_parts(struct instruction parts)
{
    uint32_t written;

    return write_instruction(parts, &written) == NOT_BANKED && written == 0;
}

/* No. 14: whether "Reading what was written gives the same parts, and a word that is read is written back identically". */
static bool is_read_and_written(uint32_t word, struct instruction parts)
{
    struct instruction read;
    uint32_t written;

    return read_instruction(word, &read) == DONE && is_same_instruction(read, parts) &&
           write_instruction(parts, &written) == DONE && written == word;
}

/* No. 14: words put together by hand from the pages; the first two are of our readings.  A 7 has no register, nor has A 63. */
static const struct {
    const char *name;
    uint32_t word;
    struct instruction parts;
} INSTRUCTIONS[] = {
    { "MRS r2, R8_usr", 0xE1002200, { CODE_BANKED_READ, 0, 14, 2 } },
    { "MSR R8_usr, r2", 0xE120F202, { CODE_BANKED_WRITE, 0, 14, 2 } },
    { "MRSEQ lr, SPSR_hyp", 0x014EE300, { CODE_BANKED_READ, 62, 0, 14 } },
    { "MSRLE SPSR_fiq, r0", 0xD16EF200, { CODE_BANKED_WRITE, 46, 13, 0 } },
    { "MRSNE r1, LR_irq", 0x11001300, { CODE_BANKED_READ, 16, 1, 1 } },
    { "MSR SP_hyp, r12", 0xE12FF30C, { CODE_BANKED_WRITE, 31, 14, 12 } },
    { "MRS r0, A 7", 0xE1070200, { CODE_BANKED_READ, 7, 14, 0 } },
    { "MSRHI A 63, r8", 0x816FF308, { CODE_BANKED_WRITE, 63, 8, 8 } },
};

/* No. 14: words that come near, put together in the same way. */
static const struct {
    const char *name;
    uint32_t word;
} NO_INSTRUCTIONS[] = {
    { "MRS, condition 15", 0xF1002200 }, { "MSR, condition 15", 0xF120F202 },
    { "MRS, register 15", 0xE100F200 }, { "MSR, register 15", 0xE120F20F },
    { "both 15", 0xF100F200 },
    { "MRS r2, CPSR", 0xE10F2000 }, { "MSR CPSR_c, r2", 0xE121F002 }, { "MSR CPSR_c, #0", 0xE321F000 },
    { "BX lr", 0xE12FFF1E }, { "SMC #0", 0xE1600070 }, { "zeros", 0 }, { "ones", UINT32_MAX },
};

static void run_words(void)
{
    for (size_t i = 0; i < sizeof INSTRUCTIONS / sizeof INSTRUCTIONS[0]; i++) {
        printf("%-18s  %08lX", INSTRUCTIONS[i].name, (unsigned long)INSTRUCTIONS[i].word);
        tell(is_read_and_written(INSTRUCTIONS[i].word, INSTRUCTIONS[i].parts));
    }
    for (size_t i = 0; i < sizeof NO_INSTRUCTIONS / sizeof NO_INSTRUCTIONS[0]; i++) {
        printf("%-18s  %08lX not banked", NO_INSTRUCTIONS[i].name, (unsigned long)NO_INSTRUCTIONS[i].word);
        tell(is_no_instruction(NO_INSTRUCTIONS[i].word));
    }
}

/* No. 14: the bits that a page gives and the should-be bits among them, and the bits that may hold a 15. */
static const struct {
    const char *name;
    uint32_t code, given, should_be, condition, reg;
} PAGES[] = {
    { "MRS", CODE_BANKED_READ, 0x0FB00EFF, 0x00000C0F, 0xF0000000, 0x0000F000 },
    { "MSR", CODE_BANKED_WRITE, 0x0FB0FEF0, 0x0000FC00, 0xF0000000, 0x0000000F },
};

enum {
    PAGE_COUNT = sizeof PAGES / sizeof PAGES[0],
    WORD_BITS = 32
};

/* No. 14: how many bits of these, turned over alone, make a word of the page NOT_BANKED. */
static uint32_t refused_turns(uint32_t word, uint32_t bits)
{
    uint32_t refused = 0;

    for (uint32_t bit = 0; bit < WORD_BITS; bit++)
        refused += (bits >> bit & 1) != 0 && is_no_instruction(word ^ UINT32_C(1) << bit);
    return refused;
}

static uint32_t count_of_bits(uint32_t bits)
{
    uint32_t count = 0;

    for (uint32_t bit = 0; bit < WORD_BITS; bit++)
        count += bits >> bit & 1;
    return count;
}

/* No. 14: what was met on a page. */
struct page_met {
    uint32_t instructions, right, should_be, given, fifteens;
};

/* No. 14: one instruction: both ways; each given bit turned over; its condition made 15, and its register. */
static void meet_instruction(size_t page, struct instruction parts, struct page_met *met)
{
    uint32_t word;

    met->instructions += write_instruction(parts, &word) == DONE;
    met->right += is_read_and_written(word, parts);
    met->should_be += refused_turns(word, PAGES[page].should_be);
    met->given += refused_turns(word, PAGES[page].given);
    met->fifteens += is_no_instruction(word | PAGES[page].condition) && is_no_instruction(word | PAGES[page].reg);
}

/* No. 14: every instruction of a page; how many there are. */
static uint32_t run_page(size_t page)
{
    struct page_met met = { 0, 0, 0, 0, 0 };
    struct instruction parts = { .code = PAGES[page].code };

    for (parts.a = 0; parts.a < ALL_A; parts.a++)
        for (parts.condition = 0; parts.condition < ALL_CONDITIONS; parts.condition++)
            for (parts.reg = 0; parts.reg < ALL_REGISTERS; parts.reg++)
                meet_instruction(page, parts, &met);
    printf("%-12s  %u words, %u read as written; refused: %u should-be bits, %u given bits, %u with a 15", PAGES[page].name,
           (unsigned)met.instructions, (unsigned)met.right, (unsigned)met.should_be, (unsigned)met.given,
           (unsigned)met.fifteens);
    tell(met.right == met.instructions && met.fifteens == met.instructions &&
         met.should_be == count_of_bits(PAGES[page].should_be) * met.instructions &&
         met.given == count_of_bits(PAGES[page].given) * met.instructions);
    return met.instructions;
}

static void run_pages(void)
{
    uint32_t instructions = 0;

    for (size_t page = 0; page < PAGE_COUNT; page++)
        instructions += run_page(page);
    printf("%-12s  %u words", "both", (unsigned)instructions);
    tell(instructions == ALL_INSTRUCTIONS);
}

/* No. 14: a part that is out of its range, the others as in the examples. */
static void run_parts(void)
{
    static const struct {
        const char *name;
        struct instruction parts;
    } CASES_OF_PARTS[] = {
        { "code 0", { 0, 0, 14, 2 } }, { "code 9", { CODE_INTERRUPT_CHECK, 0, 14, 2 } }, { "code 12", { CODE_NOTE, 0, 14, 2 } },
        { "code 266", { 0x100 + CODE_BANKED_READ, 0, 14, 2 } }, { "code, any", { UINT32_MAX, 0, 14, 2 } },
        { "A 64", { CODE_BANKED_READ, 64, 14, 2 } }, { "A, any", { CODE_BANKED_WRITE, UINT32_MAX, 14, 2 } },
        { "condition 15", { CODE_BANKED_READ, 0, 15, 2 } }, { "condition 16", { CODE_BANKED_WRITE, 0, 16, 2 } },
        { "condition, any", { CODE_BANKED_READ, 0, UINT32_MAX, 2 } },
        { "register 15", { CODE_BANKED_READ, 0, 14, 15 } }, { "register 16", { CODE_BANKED_WRITE, 0, 14, 16 } },
        { "register, any", { CODE_BANKED_WRITE, 0, 14, UINT32_MAX } },
    };

    for (size_t i = 0; i < sizeof CASES_OF_PARTS / sizeof CASES_OF_PARTS[0]; i++) {
        printf("%-14s  not banked", CASES_OF_PARTS[i].name);
        tell(are_no_parts(CASES_OF_PARTS[i].parts));
    }
}

/* No. 14: parts and a word of another size: BAD_SIZE, and nothing is written. */
static void run_instruction_sizes(void)
{
    uint8_t bytes[2 * PARTS_SIZE], before[2 * PARTS_SIZE];
    unsigned refused = 0;

    memset(before, 0xAA, sizeof before);
    memcpy(bytes, before, sizeof bytes);
    for (size_t size = 0; size <= sizeof bytes; size++) {
        if (size != PARTS_SIZE)
            refused += second_read_instruction(INSTRUCTIONS[0].word, bytes, size) == BAD_SIZE;
        if (size != WORD_SIZE)
            refused += second_write_instruction(CODE_BANKED_READ, 0, 14, 2, bytes, size) == BAD_SIZE;
    }
    refused += second_read_instruction(INSTRUCTIONS[0].word, NULL, 0) == BAD_SIZE;
    refused += second_write_instruction(CODE_BANKED_READ, 0, 14, 2, NULL, 0) == BAD_SIZE;
    printf("%-12s  %u refused", "sizes", refused);
    tell(refused == 2 * sizeof bytes + 2 && memcmp(bytes, before, sizeof bytes) == 0);
}

static void run_instructions(void)
{
    run_words();
    run_pages();
    run_parts();
    run_instruction_sizes();
}

int main(void)
{
    for (size_t i = 0; i < CASE_COUNT; i++)
        run_case(&CASES[i]);
    run_l();
    run_counts(OLD_LAYOUT);
    run_counts(NEW_LAYOUT);
    run_batches();
    run_tge();
    run_cuts(SHORTEST, sizeof SHORTEST);
    run_cuts(SHORTEST_NEW, sizeof SHORTEST_NEW);
    run_sessions(OLD_LAYOUT);
    run_sessions(NEW_LAYOUT);
    run_report_sizes();
    run_recordings();
    run_calls();
    run_returns();
    run_denials();
    run_layouts();
    run_retired();
    run_instructions();
    printf("%u passed, %u failed\n", run - differing, differing);
    return differing == 0 ? 0 : 1;
}
