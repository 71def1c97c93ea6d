#include "arriving.h"

#include "edge.h"
#include "group.h"

#include <inttypes.h>
#include <string.h>

/* Places in memory at which a session is lent. */
#define SHIFTS 4

static const struct calls CALLS = { pomurica_open, pomurica_feed, pomurica_close };

void resume(struct fed *fed, const struct pomurica_session *words, size_t shift)
{
    lend_session(fed, &CALLS, words, shift % SHIFTS);
}

void begin(struct fed *fed, size_t shift)
{
    static const struct pomurica_session OPENED;
    struct pomurica_session rubbish;

    memset(&rubbish, 0xC3, sizeof rubbish);
    resume(fed, &rubbish, shift);
    check(open_session(fed) == POMURICA_DONE && has_words(fed, &OPENED), "opened, it is not all 0");
}

uint32_t feed(struct fed *fed, const uint8_t *bytes, size_t length)
{
    const uint8_t *run = lend_at_edge(bytes, length);
    const uint32_t number = feed_session(fed, run, length);

    check(memcmp(run, bytes, length) == 0, "the run changed");
    return number;
}

void expect_closing(struct fed *fed, const struct verdict *due)
{
    struct pomurica_session words = words_of(fed);
    struct closing closing;
    const uint8_t *report;

    words.closed = 1;
    close_session(fed, POMURICA_REPORT_SIZE, &closing);
    report = bytes_of(&closing.report);
    check(closing.guards_kept, "a guard byte of the report changed");
    check(has_words(fed, &words), "closing changed more than closed");
    check(closing.number == due->number && pomurica_get_word(report, POMURICA_REPORT_NUMBER) == due->number &&
              pomurica_get_word(report, POMURICA_REPORT_PLACE) == due->place &&
              pomurica_get_word(report, POMURICA_REPORT_STEPS) == due->steps,
          "closing returned %" PRIu32 ", report %" PRIu32 " %" PRIu32 " %" PRIu32 ", not %" PRIu32 " %" PRIu32 " %" PRIu32,
          closing.number, pomurica_get_word(report, POMURICA_REPORT_NUMBER), pomurica_get_word(report, POMURICA_REPORT_PLACE),
          pomurica_get_word(report, POMURICA_REPORT_STEPS), due->number, due->place, due->steps);
}

void finish(struct fed *fed)
{
    check(take_session_back(fed), "a guard byte of the session changed");
}

struct verdict verdict_of(const uint8_t *bytes, size_t length)
{
    uint8_t report[POMURICA_REPORT_SIZE];
    struct verdict verdict = { .number = pomurica_check(bytes, length, report, sizeof report) };

    verdict.place = pomurica_get_word(report, POMURICA_REPORT_PLACE);
    verdict.steps = pomurica_get_word(report, POMURICA_REPORT_STEPS);
    return verdict;
}

static bool in_old;

void arrive_in(bool old)
{
    in_old = old;
}

bool is_arriving_in_old(void)
{
    return in_old;
}

size_t trace_length(void)
{
    return end_place() + END_SIZE;
}

uint32_t end_place(void)
{
    return record_begin(STEPS + 1);
}

uint32_t record_begin(uint32_t record)
{
    return record_place(in_old, record);
}

uint32_t record_end(uint32_t record)
{
    return record <= STEPS ? record_begin(record + 1) : (uint32_t)trace_length();
}

uint32_t record_of(size_t byte)
{
    uint32_t record = 0;

    while (record < RECORDS && byte >= record_end(record))
        record++;
    return record;
}

/* The last block is that of the Start, or of the last Step: each has it at its end. */
struct pomurica_session words_due(const uint8_t *trace, size_t length)
{
    const uint32_t record = record_of(length);
    const uint32_t place = record < RECORDS ? record_begin(record) : (uint32_t)trace_length();
    const uint32_t block_end = record < RECORDS ? place : end_place();
    struct pomurica_session due = { .place = place, .held = (uint32_t)length - place };

    memcpy(due.unfinished, trace + place, due.held);
    if (record == 0)
        return due;
    due.stage = record == RECORDS ? POMURICA_STAGE_OVER : in_old ? POMURICA_STAGE_OLD_NEXT : POMURICA_STAGE_NEXT;
    due.count = STEPS;
    due.steps = record <= STEPS ? record - 1 : STEPS;
    memcpy(due.block, trace + block_end - block_size(in_old), block_size(in_old));
    return due;
}

struct pomurica_session faulted(struct pomurica_session words, uint32_t number)
{
    words.fault = number;
    words.held = 0;
    memset(words.block, 0, sizeof words.block);
    memset(words.unfinished, 0, sizeof words.unfinished);
    return words;
}
