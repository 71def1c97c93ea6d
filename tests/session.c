/*
 * The session of the archive, called from C, in both layouts: worked case l in
 * every cut in two and in three, and a trace of three Steps by every byte of it.
 * What the session holds after each, the very byte with which each fault is
 * known, a trace that mixes the layouts among them, what a closed session
 * answers, and the longest trace byte by byte.
 */
#include "arriving.h"
#include "case_l.h"
#include "edge.h"
#include "group.h"

#include <inttypes.h>
#include <stdlib.h>
#include <string.h>

#define COUNT(list) (sizeof(list) / sizeof((list)[0]))

enum {
    MORE = POMURICA_STEP_SIZE, /* bytes behind the End, at most */
    SESSION_SIZE = 412
};

/* The words that one feeding of so many bytes leaves; the number that it returns is this one. */
static struct pomurica_session words_after(const uint8_t *bytes, size_t length, uint32_t number)
{
    static struct fed fed;
    struct pomurica_session words;

    begin(&fed, length);
    check(feed(&fed, bytes, length) == number, "%zu bytes in one run: not %" PRIu32, length, number);
    words = words_of(&fed);
    finish(&fed);
    return words;
}

/* --------------------------------------------------------------- Case l */

/* Its bytes cut before byte i and before byte j: no number but 0, and the words of one feeding. */
static void expect_cut(const uint8_t *shortest, size_t i, size_t j, const struct pomurica_session *whole,
                       const struct verdict *due)
{
    static struct fed fed;
    uint32_t number;

    begin(&fed, i + j);
    number = feed(&fed, shortest, i);
    number |= feed(&fed, shortest + i, j - i);
    if (j < due->place || i == j) /* else it is cut in two */
        number |= feed(&fed, shortest + j, due->place - j);
    check(number == POMURICA_DONE, "cut before %zu and %zu: a feeding returned %" PRIu32, i, j, number);
    check(has_words(&fed, whole), "cut before %zu and %zu: not the words of one feeding", i, j);
    expect_closing(&fed, due);
    finish(&fed);
}

static void run_case_l(const uint8_t *shortest, uint32_t size)
{
    const struct pomurica_session whole = words_after(shortest, size, POMURICA_DONE);
    const struct verdict due = { POMURICA_DONE, size, 0 }, checked = verdict_of(shortest, size);

    check(memcmp(&due, &checked, sizeof due) == 0, "the checker gives %" PRIu32, checked.number);
    for (size_t i = 0; i <= size; i++)
        for (size_t j = i; j <= size; j++)
            expect_cut(shortest, i, j, &whole, &due);
}

/* -------------------------------------------------- What a session holds */

/* Every beginning of the trace, by bytes and in one run: no fault is known, and closing alone says SHORT. */
static void run_honest(const uint8_t *trace)
{
    static struct fed fed, copy;

    begin(&fed, 0);
    for (size_t length = 0; length <= trace_length(); length++) {
        const struct pomurica_session due = words_due(trace, length);
        const struct pomurica_session at_once = words_after(trace, length, POMURICA_DONE);
        const uint32_t number = length < trace_length() ? POMURICA_SHORT : POMURICA_DONE;
        const struct verdict verdict = { number, due.place, due.steps };
        const struct verdict checked = verdict_of(trace, length);

        check(has_words(&fed, &due), "byte by byte, %zu bytes: other words", length);
        check(memcmp(&at_once, &due, sizeof due) == 0, "%zu bytes in one run: other words", length);
        check(memcmp(&verdict, &checked, sizeof verdict) == 0, "%zu bytes: the checker differs", length);
        resume(&copy, &due, length);
        expect_closing(&copy, &verdict);
        finish(&copy);
        if (length < trace_length())
            check(feed(&fed, trace + length, 1) == POMURICA_DONE, "byte %zu: not 0", length);
    }
    finish(&fed);
}

/* --------------------------------------------- When a fault becomes known */

/* Byte by byte: 0 before the byte with which it is known, the number from then on, and nothing changes any more. */
static struct pomurica_session know_by_bytes(const uint8_t *bytes, size_t length, size_t known, uint32_t number)
{
    static struct fed fed;
    struct pomurica_session due;

    begin(&fed, known);
    for (size_t i = 0; i < known - 1; i++)
        check(feed(&fed, bytes + i, 1) == POMURICA_DONE, "%" PRIu32 " is known with byte %zu, not %zu", number, i, known - 1);
    due = words_of(&fed);
    due = faulted(due, number);
    for (size_t i = known - 1; i < length; i++)
        check(feed(&fed, bytes + i, 1) == number && has_words(&fed, &due), "%" PRIu32 ", byte %zu: other words, or number",
              number, i);
    finish(&fed);
    return due;
}

/* Known with this many bytes, and no fewer, however they are fed; closing gives what the checker gives. */
static void expect_known(const uint8_t *bytes, size_t length, size_t known, const struct verdict *due)
{
    const struct pomurica_session words = know_by_bytes(bytes, length, known, due->number);
    const struct pomurica_session at_once = words_after(bytes, known, due->number);
    const struct pomurica_session whole = words_after(bytes, length, due->number);
    const struct verdict checked = verdict_of(bytes, length);
    static struct fed fed;

    words_after(bytes, known - 1, POMURICA_DONE);
    check(memcmp(&at_once, &words, sizeof words) == 0, "%" PRIu32 ", in one run up to there: other words", due->number);
    check(memcmp(&whole, &words, sizeof words) == 0, "%" PRIu32 ", all in one run: other words", due->number);
    check(memcmp(due, &checked, sizeof checked) == 0, "the checker gives %" PRIu32, checked.number);
    resume(&fed, &words, known);
    expect_closing(&fed, due);
    finish(&fed);
}

/* The trace with one byte changed: the record in which it lies is at fault, which is known so many bytes behind its first. */
static void expect_change(const uint8_t *trace, size_t byte, uint8_t bits, uint32_t number, size_t behind)
{
    const uint32_t record = record_of(byte), place = record_begin(record);
    const struct verdict due = { number, place, record == 0 ? 0 : record - 1 };
    uint8_t changed[MOST_LENGTH];

    memcpy(changed, trace, trace_length());
    changed[byte] ^= bits;
    expect_known(changed, trace_length(), place + behind, &due);
}

/* Each byte of each head. */
static void run_heads(const uint8_t *trace)
{
    for (uint32_t record = 0; record < RECORDS; record++)
        for (size_t byte = 0; byte < HEAD_SIZE; byte++) {
            expect_change(trace, record_begin(record) + byte, 1, POMURICA_BAD_RECORD, HEAD_SIZE);
            expect_change(trace, record_begin(record) + byte, 0x80, POMURICA_BAD_RECORD, HEAD_SIZE);
        }
}

/* The Start announces a Step too many or too few: a good head, and not that of the record due. */
static void run_announced(const uint8_t *trace)
{
    const struct verdict too_many = { POMURICA_BAD_RECORD, end_place(), STEPS };
    const struct verdict too_few = { POMURICA_BAD_RECORD, record_begin(STEPS), STEPS - 1 };
    uint8_t changed[MOST_LENGTH];

    memcpy(changed, trace, trace_length());
    pomurica_put_word(changed, POMURICA_RECORD_COUNT, STEPS + 1);
    expect_known(changed, trace_length(), too_many.place + HEAD_SIZE, &too_many);
    pomurica_put_word(changed, POMURICA_RECORD_COUNT, STEPS - 1);
    expect_known(changed, trace_length(), too_few.place + HEAD_SIZE, &too_few);
}

/* The first word of a record of the layout, or of the other one. */
static uint32_t head_of(bool old, uint32_t record)
{
    if (record == 0)
        return old ? POMURICA_OLD_START_HEAD : POMURICA_START_HEAD;
    return old ? POMURICA_OLD_STEP_HEAD : POMURICA_STEP_HEAD;
}

/* A Step of the other layout, and length and kind that do not go together; behind another Start its own Step is due. */
static void run_mixed(const uint8_t *trace)
{
    const bool old = is_arriving_in_old();
    const struct verdict other_start = { POMURICA_BAD_RECORD, start_size(!old), 0 };
    uint8_t changed[MOST_LENGTH];

    for (uint32_t record = 0; record <= STEPS; record++) {
        const uint32_t due = head_of(old, record), other = head_of(!old, record);
        const struct verdict wrong = { POMURICA_BAD_RECORD, record_begin(record), record == 0 ? 0 : record - 1 };

        memcpy(changed, trace, trace_length());
        pomurica_put_word(changed + wrong.place, POMURICA_RECORD_HEAD, (due & 0xFFFF) | (other & 0xFFFF0000));
        expect_known(changed, trace_length(), wrong.place + HEAD_SIZE, &wrong);
        pomurica_put_word(changed + wrong.place, POMURICA_RECORD_HEAD, (other & 0xFFFF) | (due & 0xFFFF0000));
        expect_known(changed, trace_length(), wrong.place + HEAD_SIZE, &wrong);
        pomurica_put_word(changed + wrong.place, POMURICA_RECORD_HEAD, other);
        if (record == 0)
            expect_known(changed, trace_length(), other_start.place + HEAD_SIZE, &other_start);
        else
            expect_known(changed, trace_length(), wrong.place + HEAD_SIZE, &wrong);
    }
}

/* n of the Start above 65,535, by one and by each of its upper bits; any other n of the End. */
static void run_counts(const uint8_t *trace)
{
    const struct verdict due = { POMURICA_BAD_COUNT, 0, 0 };
    const size_t count = sizeof(uint32_t) * POMURICA_RECORD_COUNT, start = start_size(is_arriving_in_old());
    uint8_t changed[MOST_LENGTH];

    memcpy(changed, trace, trace_length());
    pomurica_put_word(changed, POMURICA_RECORD_COUNT, POMURICA_MOST_STEPS + 1);
    expect_known(changed, trace_length(), start, &due);
    for (size_t byte = 2; byte < sizeof(uint32_t); byte++)
        expect_change(trace, count + byte, 0x80, POMURICA_BAD_COUNT, start);
    for (size_t byte = 0; byte < sizeof(uint32_t); byte++)
        expect_change(trace, end_place() + count + byte, 1, POMURICA_BAD_COUNT, POMURICA_END_SIZE);
}

/* The first and the last byte of each word that a Step says came of its event. */
static void run_wrong_steps(const uint8_t *trace)
{
    const size_t size = step_size(is_arriving_in_old());

    for (uint32_t step = 1; step <= STEPS; step++)
        for (size_t word = POMURICA_STEP_NUMBER; word < size / sizeof(uint32_t); word++) {
            const size_t byte = record_begin(step) + sizeof(uint32_t) * word;

            expect_change(trace, byte, 1, POMURICA_WRONG_STEP, size);
            expect_change(trace, byte + sizeof(uint32_t) - 1, 0x80, POMURICA_WRONG_STEP, size);
        }
}

/* One byte behind the End, and more; a second End. */
static void run_trailing(const uint8_t *trace)
{
    const struct verdict due = { POMURICA_TRAILING, (uint32_t)trace_length(), STEPS };
    uint8_t longer[MOST_LENGTH + MORE] = { 0 };

    memcpy(longer, trace, due.place);
    for (size_t length = due.place + 1; length <= due.place + MORE; length++)
        expect_known(longer, length, due.place + 1, &due);
    memcpy(longer + due.place, trace + end_place(), POMURICA_END_SIZE);
    expect_known(longer, due.place + POMURICA_END_SIZE, due.place + 1, &due);
}

/* -------------------------------------- What holds of every fed session */

/* A session that was fed these bytes, lent anew for each try. */
typedef void try_function(struct fed *fed, const uint8_t *bytes, size_t length);

static void try_after(try_function *try, const uint8_t *bytes, size_t length)
{
    static struct fed fed;

    begin(&fed, length);
    feed(&fed, bytes, length);
    try(&fed, bytes, length);
    finish(&fed);
}

/* After every beginning of the trace, with a byte too many, and after each other fault. */
static void try_all(try_function *try, const uint8_t *trace)
{
    const size_t changed[] = {
        0, sizeof(uint32_t) * (POMURICA_RECORD_COUNT + 1) - 1, record_begin(1), end_place() - 1, end_place(),
        trace_length() - 1
    };
    uint8_t bytes[MOST_LENGTH + 1] = { 0 };

    memcpy(bytes, trace, trace_length());
    for (size_t length = 0; length <= trace_length() + 1; length++)
        try_after(try, bytes, length);
    for (size_t i = 0; i < COUNT(changed); i++) {
        bytes[changed[i]] ^= 1;
        try_after(try, bytes, trace_length());
        bytes[changed[i]] ^= 1;
    }
}

/* The number that an open session returns. */
static uint32_t number_fed(const uint8_t *bytes, size_t length)
{
    const uint32_t number = verdict_of(bytes, length).number;

    return number == POMURICA_SHORT ? POMURICA_DONE : number;
}

/* No bytes, from anywhere: the number as before, and nothing changes. */
static void try_empty_runs(struct fed *fed, const uint8_t *bytes, size_t length)
{
    const struct pomurica_session words = words_of(fed);
    const uint32_t number = number_fed(bytes, length);

    check(feed(fed, bytes, 0) == number && has_words(fed, &words), "%zu bytes: an empty run", length);
    check(feed_session(fed, NULL, 0) == number && has_words(fed, &words), "%zu bytes: an empty run at NULL", length);
}

/* Closed: 14 for any run, the empty one too, over any fault, and nothing changes; closing again gives the same. */
static void try_closed(struct fed *fed, const uint8_t *bytes, size_t length)
{
    const struct verdict due = verdict_of(bytes, length);
    struct pomurica_session words;

    expect_closing(fed, &due);
    words = words_of(fed);
    check(feed(fed, bytes, 0) == POMURICA_CLOSED, "%zu bytes, closed: an empty run is not 14", length);
    check(feed_session(fed, NULL, 0) == POMURICA_CLOSED, "%zu bytes, closed: an empty run at NULL is not 14", length);
    check(feed(fed, SHORTEST, 1) == POMURICA_CLOSED, "%zu bytes, closed: a byte is not 14", length);
    check(feed(fed, SHORTEST, SHORTEST_SIZE) == POMURICA_CLOSED, "%zu bytes, closed: a trace is not 14", length);
    check(has_words(fed, &words), "%zu bytes, closed: a feeding changed it", length);
    expect_closing(fed, &due);
    check(has_words(fed, &words), "%zu bytes: closing again changed it", length);
}

/* Every other length of the report: 1, and nothing changes; open and closed. */
static void expect_bad_sizes(struct fed *fed)
{
    const struct pomurica_session words = words_of(fed);
    struct closing closing;

    for (size_t length = 0; length <= LONGEST_TRIED; length++) {
        if (length == POMURICA_REPORT_SIZE)
            continue;
        close_session(fed, length, &closing);
        check(closing.number == POMURICA_BAD_SIZE && closing.guards_kept && is_unchanged(&closing.report) &&
                  has_words(fed, &words),
              "report of %zu bytes", length);
    }
}

static void try_report_lengths(struct fed *fed, const uint8_t *bytes, size_t length)
{
    const struct verdict due = verdict_of(bytes, length);

    expect_bad_sizes(fed);
    expect_closing(fed, &due);
    expect_bad_sizes(fed);
}

/* Opened once more, open or closed, it is a new one. */
static void try_open_again(struct fed *fed, const uint8_t *bytes, size_t length)
{
    static const struct pomurica_session OPENED;
    const struct verdict due = verdict_of(bytes, length), shortest = { POMURICA_DONE, SHORTEST_SIZE, 0 };

    check(open_session(fed) == POMURICA_DONE && has_words(fed, &OPENED), "%zu bytes: opened again", length);
    feed(fed, bytes, length);
    expect_closing(fed, &due);
    check(open_session(fed) == POMURICA_DONE && has_words(fed, &OPENED), "%zu bytes, closed: opened again", length);
    feed(fed, SHORTEST, SHORTEST_SIZE);
    expect_closing(fed, &shortest);
}

/* A copy goes on by itself, and neither knows of the other's bytes. */
static void try_copy(struct fed *fed, const uint8_t *bytes, size_t length)
{
    static const uint8_t WRONG[HEAD_SIZE + MORE];
    const struct pomurica_session words = words_of(fed);
    const struct verdict due = verdict_of(bytes, length);
    static struct fed copy;

    resume(&copy, &words, length + 1);
    feed(&copy, WRONG, sizeof WRONG);
    check(has_words(fed, &words), "%zu bytes: feeding a copy changed it", length);
    expect_closing(fed, &due);
    check(feed(&copy, WRONG, 0) != POMURICA_CLOSED, "%zu bytes: closing it closed a copy", length);
    finish(&copy);
}

static void run_no_bytes(void)
{
    const struct verdict due = { POMURICA_SHORT, 0, 0 };
    struct pomurica_session session;
    static struct fed fed;

    begin(&fed, 0);
    expect_closing(&fed, &due);
    finish(&fed);
    check(pomurica_open(&session) == POMURICA_DONE && pomurica_feed(&session, NULL, 0) == POMURICA_DONE, "NULL for a run");
    check(pomurica_close(&session, NULL, 0) == POMURICA_BAD_SIZE, "NULL for a report");
}

/* ---------------------------------------------------------- The longest */

/* Byte by byte, where it lies. */
static void run_longest(struct chance *chance)
{
    const uint32_t longest = chance->old ? POMURICA_OLD_LONGEST_TRACE : POMURICA_LONGEST_TRACE;
    const struct verdict due = { POMURICA_DONE, longest, POMURICA_MOST_STEPS };
    uint8_t *trace = malloc(longest);
    static struct fed fed;
    uint32_t numbers = 0;

    if (!check(trace != NULL, "no memory"))
        return;
    check(record_trace(chance, POMURICA_MOST_STEPS, trace) == longest, "not the longest");
    begin(&fed, 0);
    for (size_t i = 0; i < longest; i++)
        numbers |= feed_session(&fed, trace + i, 1);
    check(numbers == POMURICA_DONE, "a feeding did not return 0");
    expect_closing(&fed, &due);
    finish(&fed);
    free(trace);
}

/* --------------------------------------------------------------- Layout */

/* The struct as the header has it: its words, then its bytes, and no gap. */
static void run_layout(void)
{
    static const size_t PLACES[] = {
        offsetof(struct pomurica_session, stage), offsetof(struct pomurica_session, count),
        offsetof(struct pomurica_session, steps), offsetof(struct pomurica_session, place),
        offsetof(struct pomurica_session, held), offsetof(struct pomurica_session, fault),
        offsetof(struct pomurica_session, closed), offsetof(struct pomurica_session, block),
    };
    const size_t block_end = offsetof(struct pomurica_session, block) + POMURICA_BLOCK_SIZE;

    for (size_t i = 0; i < COUNT(PLACES); i++)
        check(PLACES[i] == sizeof(uint32_t) * i, "word %zu lies at byte %zu", i, PLACES[i]);
    check(offsetof(struct pomurica_session, unfinished) == block_end, "the record does not lie behind the block");
    check(sizeof(struct pomurica_session) == block_end + POMURICA_RECORD_SIZE, "there is a gap");
    check(sizeof(struct pomurica_session) == SESSION_SIZE, "it has %zu bytes", sizeof(struct pomurica_session));
}

static void run_opened(const uint8_t *trace)
{
    const char *const layout = layout_name(is_arriving_in_old());

    group_of(layout, "every byte of the session, after each byte of an honest trace");
    run_honest(trace);
    group_of(layout, "9 is known with a record's fourth byte");
    run_heads(trace);
    run_announced(trace);
    run_mixed(trace);
    group_of(layout, "10 is known with the record's last byte");
    run_counts(trace);
    group_of(layout, "11 is known with the Step's last byte");
    run_wrong_steps(trace);
    group_of(layout, "12 is known with the first byte behind the End");
    run_trailing(trace);
    group_of(layout, "an empty run changes nothing, wherever it comes");
    try_all(try_empty_runs, trace);
    group_of(layout, "closed: 14, and the same three numbers again");
    try_all(try_closed, trace);
    group_of(layout, "every length of the report from 0 to 210");
    try_all(try_report_lengths, trace);
    group_of(layout, "opened again, and a copy that goes on");
    try_all(try_open_again, trace);
    try_all(try_copy, trace);
}

/* All of it with a trace of one layout. */
static void run_in(bool old)
{
    struct chance chance = { .seed = 1, .old = old };
    static uint8_t trace[MOST_LENGTH];

    arrive_in(old);
    record_trace(&chance, STEPS, trace);
    run_opened(trace);
    group_of(layout_name(old), "the longest trace, byte by byte");
    run_longest(&chance);
}

int main(void)
{
    open_edge(MOST_LENGTH + MORE);
    group("the struct, as the header has it");
    run_layout();
    group("closing with no bytes, and NULL with length 0");
    run_no_bytes();
    group("worked case l, in every cut in two and in three");
    run_case_l(OLD_SHORTEST, OLD_SHORTEST_SIZE);
    group("the shortest trace of the new layout, in every cut in two and in three");
    run_case_l(SHORTEST, SHORTEST_SIZE);
    run_in(false);
    run_in(true);
    return summary();
}
