/*
 * The counts of No. 1 of document 02: an accepted trace is walked once more,
 * each Step is counted in every group that it belongs to, and the sums are
 * written only when each of them fits.
 */
#include "second.h"
#include "words.h"

#include <stdbool.h>

/* No. 1: "four groups", in the order given there. */
enum group {
    BY_CODE = 1,
    BY_ANSWER = 2,
    BY_TARGET = 3,
    BY_TAKEN = 4
};

/* No. 1: how many numbers a group has room for, and how many counts there are. */
enum room {
    NUMBERS = 32,
    COUNTS = COUNTS_SIZE / 4
};

/* No. 1: the counts; number i of group g is word 32 (g - 1) + i. */
struct counts {
    uint32_t word[COUNTS];
};

/* --------------------------------------------------------- The counting */

/* No. 1: "all codes that the rules do not know under the one number 0". */
static uint32_t known_code(uint32_t code)
{
    return code < CODES ? code : 0;
}

/*
 * Answer numbers: of a done step, whether it is an entry; of codes 1-9 only "nothing taken" has the value 0.  No. 9: a
 * return is taken "under code 13 and not as an entry".
 */
static bool is_entry(uint32_t code, uint32_t value)
{
    return code <= CODE_INTERRUPT_CHECK && value != 0;
}

/* Answer numbers: mode and which, in which * 65536 + mode * 256 + offset. */
static uint32_t mode_of_entry(uint32_t value)
{
    return value / 256 % 256;
}

static uint32_t which_of_entry(uint32_t value)
{
    return value / 65536;
}

/* No. 1: one more under a number of a group. */
static void count_one(struct counts *counts, enum group group, uint32_t number)
{
    counts->word[NUMBERS * (group - 1) + number]++;
}

/* No. 1: one Step, in every group that it belongs to; "0 for nothing" is the value's own. */
static void count_step(struct counts *counts, const uint8_t *step)
{
    const uint32_t code = get_word(step + STEP_CODE);
    const uint32_t number = get_word(step + STEP_ANSWER);
    const uint32_t value = get_word(step + STEP_VALUE);

    count_one(counts, BY_CODE, known_code(code));
    count_one(counts, BY_ANSWER, number);
    if (number != DONE)
        return;
    if (is_entry(code, value))
        count_one(counts, BY_TARGET, mode_of_entry(value));
    if (code == CODE_INTERRUPT_CHECK)
        count_one(counts, BY_TAKEN, which_of_entry(value));
}

/* The trace: the record behind this one, which opens with the "length of the whole record". */
static const uint8_t *next_record(const uint8_t *record)
{
    return record + get_half(record);
}

/* No. 1: each count "from the list of accepted Steps"; they are at most 65,535. */
static struct counts count_steps(const uint8_t *trace, uint32_t steps)
{
    struct counts counts = { { 0 } };
    const uint8_t *step = next_record(trace);

    for (uint32_t i = 0; i < steps; i++) {
        count_step(&counts, step);
        step = next_record(step);
    }
    return counts;
}

/* No. 1: the counts of 512 bytes. */
static struct counts read_counts(const uint8_t *bytes)
{
    struct counts counts;

    for (uint32_t i = 0; i < COUNTS; i++)
        counts.word[i] = get_word(bytes + 4 * i);
    return counts;
}

/* No. 1: the sums into their 512 bytes. */
static void write_sums(uint8_t *bytes, const struct counts *before, const struct counts *more)
{
    for (uint32_t i = 0; i < COUNTS; i++)
        put_word(bytes + 4 * i, before->word[i] + more->word[i]);
}

/* No. 1: whether "any count would pass 4,294,967,295". */
static bool would_pass(const struct counts *before, const struct counts *more)
{
    for (uint32_t i = 0; i < COUNTS; i++) {
        if (more->word[i] > UINT32_MAX - before->word[i])
            return true;
    }
    return false;
}

/* No. 1: "A refused trace adds nothing and keeps its own number." */
uint32_t second_count(const uint8_t *trace, size_t trace_len,
                      uint8_t *counts, size_t counts_len)
{
    uint8_t report[REPORT_SIZE];
    struct counts before, more;
    uint32_t number;

    if (counts_len != COUNTS_SIZE)
        return BAD_SIZE;
    number = second_check(trace, trace_len, report, sizeof report);
    if (number != DONE)
        return number;

    before = read_counts(counts);
    more = count_steps(trace, get_word(report + 8));
    if (would_pass(&before, &more))
        return FULL;
    write_sums(counts, &before, &more);
    return DONE;
}

/* ------------------------------------------------------------ The lines */

/* No. 1: the letters of a line. */
enum letter {
    LINE_END = 0x0A,
    SPACE = 0x20,
    DIGIT_0 = 0x30
};

/* No. 1: lines as they are made. */
struct text {
    uint8_t letter[LINES_SIZE];
    uint32_t length;
};

static void put_letter(struct text *text, uint32_t letter)
{
    text->letter[text->length] = (uint8_t)letter;
    text->length++;
}

/* No. 1: "in decimal". */
static void put_decimal(struct text *text, uint32_t number)
{
    if (number >= 10)
        put_decimal(text, number / 10);
    put_letter(text, DIGIT_0 + number % 10);
}

/* No. 1: "the group 1 to 4, the number within it, the count". */
static void put_line(struct text *text, uint32_t group, uint32_t number, uint32_t count)
{
    put_decimal(text, group);
    put_letter(text, SPACE);
    put_decimal(text, number);
    put_letter(text, SPACE);
    put_decimal(text, count);
    put_letter(text, LINE_END);
}

/* No. 1: "one line per non-zero count", groups in order, "numbers rising within each". */
static void put_lines(struct text *text, const struct counts *counts)
{
    for (uint32_t i = 0; i < COUNTS; i++) {
        if (counts->word[i] != 0)
            put_line(text, i / NUMBERS + 1, i % NUMBERS, counts->word[i]);
    }
}

/* No. 1: the number, and how many bytes were written. */
static uint32_t give(uint8_t *answer, enum number number, uint32_t written)
{
    put_word(answer, number);
    put_word(answer + 4, written);
    return number;
}

/* No. 1: the lines into the room that is lent, if they fit. */
uint32_t second_count_lines(const uint8_t *counts, size_t counts_len,
                            uint8_t *lines, size_t lines_len,
                            uint8_t *answer, size_t answer_len)
{
    struct counts words;
    struct text text;

    if (counts_len != COUNTS_SIZE || answer_len != ANSWER_SIZE)
        return BAD_SIZE;

    words = read_counts(counts);
    text.length = 0;
    put_lines(&text, &words);
    if (lines_len < text.length)
        return give(answer, NO_ROOM, 0);
    for (uint32_t i = 0; i < text.length; i++)
        lines[i] = text.letter[i];
    return give(answer, DONE, text.length);
}
