/*
 * Holds the step against single steps recorded on an emulated core that
 * nobody here wrote.  The header of the file of rows explains its columns.  Its
 * blocks are of the old layout, and get a word of 0 behind them, HDCR; its
 * events too, among them checks with virtual lines, which a step has by HCR.VF
 * and HCR.VI.  So each row also has to be accepted as a Step of an old trace.
 *
 *     recorded FILE
 */
#include "group.h"
#include "pomurica.h"

#include "../host/record.h"

#include <ctype.h>
#include <errno.h>
#include <stdbool.h>
#include <stdio.h>
#include <stdlib.h>
#include <string.h>

/* The file: nine columns, in lines well below 2,048 characters. */
enum {
    COLUMNS = 9,
    LINE_SIZE = 2048
};

/* The file: what the core did. */
enum core_outcome {
    ENTERED,
    TOOK_NOTHING,
    READ,
    WRITTEN,
    WENT_UNDEFINED,
    OUTCOMES
};

/* The file: how it names what the core did. */
static const char *const OUTCOME[OUTCOMES] = { "entry", "nothing", "read", "written", "undef" };

/* The file: one row. */
struct row {
    unsigned line;
    uint32_t code, a, b;
    enum core_outcome outcome;
    uint32_t value;
    bool unseen[POMURICA_PLACES];
    uint32_t unread_cpsr;
    uint8_t before[POMURICA_BLOCK_SIZE], after[POMURICA_BLOCK_SIZE];
};

/* The file: a word in decimal (base 10) or hex (base 16), and nothing else. */
static bool parse_word(const char *text, int base, uint32_t *word)
{
    char *end;
    unsigned long long number;

    if (!isxdigit((unsigned char)text[0]))
        return false;
    number = strtoull(text, &end, base);
    if (*end != '\0' || number > UINT32_MAX)
        return false;
    *word = (uint32_t)number;
    return true;
}

/* The file: a block as 352 hex digits; HDCR is 0. */
static bool parse_block(const char *text, uint8_t *block)
{
    if (strlen(text) != 2 * POMURICA_OLD_BLOCK_SIZE)
        return false;
    pomurica_put_word(block, POMURICA_PLACE_HDCR, 0);
    for (size_t i = 0; i < POMURICA_OLD_BLOCK_SIZE; i++) {
        const char digits[3] = { text[2 * i], text[2 * i + 1], '\0' };
        uint32_t byte;

        if (!parse_word(digits, 16, &byte))
            return false;
        block[i] = (uint8_t)byte;
    }
    return true;
}

/* The file: the places not seen, a comma list or `-`. */
static bool parse_unseen(char *text, bool *unseen)
{
    memset(unseen, 0, POMURICA_PLACES * sizeof *unseen);
    if (strcmp(text, "-") == 0)
        return true;
    for (char *item = text; item != NULL;) {
        char *comma = strchr(item, ',');
        uint32_t place;

        if (comma != NULL)
            *comma++ = '\0';
        if (!parse_word(item, 10, &place) || place >= POMURICA_PLACES)
            return false;
        unseen[place] = true;
        item = comma;
    }
    return true;
}

/* The file: the outcome by its name. */
static bool parse_outcome(const char *text, enum core_outcome *outcome)
{
    for (uint32_t i = 0; i < OUTCOMES; i++) {
        if (strcmp(text, OUTCOME[i]) == 0) {
            *outcome = (enum core_outcome)i;
            return true;
        }
    }
    return false;
}

/* The file: cuts a line at its tabs; whether it has just nine columns. */
static bool split(char *line, char *column[COLUMNS])
{
    line[strcspn(line, "\r\n")] = '\0';
    for (uint32_t i = 0; i < COLUMNS; i++) {
        char *tab = strchr(line, '\t');

        column[i] = line;
        if ((tab == NULL) != (i == COLUMNS - 1))
            return false;
        if (tab != NULL) {
            *tab = '\0';
            line = tab + 1;
        }
    }
    return true;
}

/* The file: a row from its line. */
static bool parse_row(char *line, struct row *row)
{
    char *column[COLUMNS];

    return split(line, column) &&
           parse_word(column[0], 10, &row->code) &&
           parse_word(column[1], 10, &row->a) &&
           parse_word(column[2], 10, &row->b) &&
           parse_outcome(column[3], &row->outcome) &&
           parse_word(column[4], 10, &row->value) &&
           parse_unseen(column[5], row->unseen) &&
           parse_word(column[6], 16, &row->unread_cpsr) &&
           parse_block(column[7], row->before) &&
           parse_block(column[8], row->after);
}

/* Answer numbers: "The verdict of a done step", told by the event and its value. */
static enum core_outcome verdict_of(uint32_t code, uint32_t value)
{
    if (code == POMURICA_EVENT_BANKED_READ)
        return READ;
    if (code == POMURICA_EVENT_BANKED_WRITE || code == POMURICA_EVENT_NOTE)
        return WRITTEN;
    if (code == POMURICA_EVENT_INTERRUPT_CHECK && value == 0)
        return TOOK_NOTHING;
    return ENTERED;
}

/* A step from the block before a row's event, and what came of it. */
struct step {
    uint8_t block[POMURICA_BLOCK_SIZE];
    uint32_t number, value;
};

/* Answer numbers: what a direct step makes of the event. */
static struct step step_directly(const struct row *row, uint32_t code, uint32_t a, uint32_t b)
{
    uint8_t answer[POMURICA_ANSWER_SIZE];
    struct step step;

    memcpy(step.block, row->before, sizeof step.block);
    step.number = pomurica_step(step.block, sizeof step.block, code, a, b, answer, sizeof answer);
    step.value = pomurica_get_word(answer, POMURICA_ANSWER_VALUE);
    check(pomurica_get_word(answer, POMURICA_ANSWER_NUMBER) == step.number,
          "line %u: another number written than returned", row->line);
    return step;
}

/* An old trace of one Step. */
struct old_trace {
    uint8_t start[POMURICA_OLD_START_SIZE], step[POMURICA_OLD_STEP_SIZE], end[POMURICA_END_SIZE];
};

/* The trace: the row's event in an old one, with what host/record.h finds due; the checker has to accept it. */
static struct step step_in_old(const struct row *row, uint32_t code, uint32_t a, uint32_t b)
{
    uint8_t report[POMURICA_REPORT_SIZE];
    struct old_trace trace;
    struct step step;
    struct due due;

    pomurica_put_word(trace.start, POMURICA_RECORD_HEAD, POMURICA_OLD_START_HEAD);
    pomurica_put_word(trace.start, POMURICA_RECORD_COUNT, 1);
    memcpy(trace.start + 4 * POMURICA_START_BLOCK, row->before, POMURICA_OLD_BLOCK_SIZE);
    pomurica_put_word(trace.step, POMURICA_RECORD_HEAD, POMURICA_OLD_STEP_HEAD);
    pomurica_put_word(trace.step, POMURICA_STEP_CODE, code);
    pomurica_put_word(trace.step, POMURICA_STEP_A, a);
    pomurica_put_word(trace.step, POMURICA_STEP_B, b);
    find_due(trace.step, &due);
    memcpy(trace.step + 4 * POMURICA_STEP_NUMBER, due.answer, sizeof due.answer);
    memcpy(trace.step + 4 * POMURICA_STEP_BLOCK, due.block, POMURICA_OLD_BLOCK_SIZE);
    pomurica_put_word(trace.end, POMURICA_RECORD_HEAD, POMURICA_END_HEAD);
    pomurica_put_word(trace.end, POMURICA_RECORD_COUNT, 1);
    check(pomurica_check((const uint8_t *)&trace, sizeof trace, report, sizeof report) == POMURICA_DONE,
          "line %u: not accepted in an old trace", row->line);
    memcpy(step.block, due.block, sizeof step.block);
    step.number = pomurica_get_word(due.answer, POMURICA_ANSWER_NUMBER);
    step.value = pomurica_get_word(due.answer, POMURICA_ANSWER_VALUE);
    return step;
}

/* Whether both came to the same. */
static bool is_same(const struct step *one, const struct step *other)
{
    return one->number == other->number && one->value == other->value &&
           memcmp(one->block, other->block, sizeof one->block) == 0;
}

/* No. 13: a direct step refuses a virtual line, and leaves the block; any other event is the same in an old trace. */
static struct step step_from(const struct row *row, uint32_t code, uint32_t a, uint32_t b)
{
    const struct step directly = step_directly(row, code, a, b), in_old = step_in_old(row, code, a, b);

    if (virtual_lines(code, a) == 0)
        check(is_same(&directly, &in_old), "line %u: another step in an old trace", row->line);
    else
        check(directly.number == POMURICA_BAD_EVENT && directly.value == 0 &&
                  memcmp(directly.block, row->before, sizeof directly.block) == 0,
              "line %u: a virtual line, answered %u", row->line, directly.number);
    return in_old;
}

/*
 * No. 8: whether the row is of a call that SCD or HCE stops.  A row in which the core took such a call would be taken out by
 * this rule.  There is none of either kind: all calls were recorded with SCD 0 and HCE 1, and the rows stay as they are.
 */
static bool is_disabled(const struct row *row)
{
    const uint32_t scr = pomurica_get_word(row->before, POMURICA_PLACE_SCR);

    if (row->code == POMURICA_EVENT_SMC)
        return (scr & POMURICA_SCR_SCD) != 0;
    return row->code == POMURICA_EVENT_HVC && (scr & POMURICA_SCR_HCE) == 0;
}

/* Answer numbers: a refusal of the call or access is 5, 6, 7 or 17, value 0, block unchanged. */
static void check_refused(const struct row *row)
{
    const struct step step = step_from(row, row->code, row->a, row->b);

    check((step.number >= POMURICA_NOT_HERE && step.number <= POMURICA_NO_RIGHT) || step.number == POMURICA_OWN_REGISTER,
          "line %u: answered %u, not 5, 6, 7 or 17", row->line, step.number);
    check(step.value == 0, "line %u: refused with value 0x%X", row->line, step.value);
    check(memcmp(step.block, row->before, sizeof step.block) == 0,
          "line %u: refused, and the block changed", row->line);
}

/* Answer numbers: a done step gives the recorded value and, where seen, the recorded block. */
static void check_done(const struct row *row, uint32_t code, uint32_t a, uint32_t b)
{
    const struct step step = step_from(row, code, a, b);

    check(step.number == POMURICA_DONE, "line %u: answered %u, not done", row->line, step.number);
    check(step.value == row->value, "line %u: value 0x%X, recorded 0x%X", row->line, step.value,
          row->value);
    for (uint32_t place = 0; place < POMURICA_PLACES; place++) {
        const uint32_t unread = place == POMURICA_PLACE_CPSR ? row->unread_cpsr : 0;
        const uint32_t ours = pomurica_get_word(step.block, place);
        const uint32_t theirs = pomurica_get_word(row->after, place);

        check(row->unseen[place] || ((ours ^ theirs) & ~unread) == 0,
              "line %u: place %u holds 0x%X, recorded 0x%X", row->line, place, ours, theirs);
    }
}

/* The file: `undef` is a refusal here, and the recorded entry is event 1's. */
static void check_row(const struct row *row)
{
    if (row->outcome == WENT_UNDEFINED) {
        check_refused(row);
        check_done(row, POMURICA_EVENT_UNDEFINED, 0, 0);
    } else {
        check(row->outcome == verdict_of(row->code, row->value), "line %u: not `%s` by its value",
              row->line, OUTCOME[row->outcome]);
        check_done(row, row->code, row->a, row->b);
    }
}

/* How many rows are of calls, and how many of checks with a virtual line. */
#define CALLS 36
#define WITH_VIRTUAL_LINES 324

static void check_rows(FILE *file)
{
    unsigned rows[OUTCOMES] = { 0 }, calls = 0, with_virtual_lines = 0;
    char line[LINE_SIZE];
    struct row row;

    for (row.line = 1; fgets(line, sizeof line, file) != NULL; row.line++) {
        if (line[0] == '#')
            continue;
        if (!check(parse_row(line, &row), "line %u: not a row", row.line))
            continue;
        check_row(&row);
        rows[row.outcome]++;
        calls += row.code == POMURICA_EVENT_SMC || row.code == POMURICA_EVENT_HVC;
        check(!is_disabled(&row), "line %u: a disabled call", row.line);
        with_virtual_lines += virtual_lines(row.code, row.a) != 0;
    }
    check(!ferror(file), "%s", strerror(errno));
    for (uint32_t i = 0; i < OUTCOMES; i++) {
        printf("  %-8s %4u rows\n", OUTCOME[i], rows[i]);
        check(rows[i] != 0, "no row `%s`", OUTCOME[i]);
    }
    printf("  %-8s %4u rows, none with SCD 1 or HCE 0\n", "calls", calls);
    check(calls == CALLS, "%u rows of calls, not %u", calls, CALLS);
    printf("  %-8s %4u rows of checks with a virtual line\n", "lines", with_virtual_lines);
    check(with_virtual_lines == WITH_VIRTUAL_LINES, "%u rows with a virtual line, not %u", with_virtual_lines,
          WITH_VIRTUAL_LINES);
}

int main(int argc, char **argv)
{
    FILE *file;

    if (argc != 2) {
        fprintf(stderr, "usage: recorded FILE\n");
        return 2;
    }
    file = fopen(argv[1], "r");
    if (file == NULL) {
        perror(argv[1]);
        return 2;
    }
    group("steps recorded on a foreign core");
    check_rows(file);
    fclose(file);
    return summary();
}
