/*
 * Sessions of words that no feeding leaves, called from C, in both layouts: each
 * gets an answer, by the same rules, whether its bytes come at once or one by
 * one.  Where a trace is of the old layout, the bytes behind those that it uses
 * stay whatever they are, until a fault clears all.
 */
#include "arriving.h"
#include "edge.h"
#include "group.h"

#include <string.h>

#define COUNT(list) (sizeof(list) / sizeof((list)[0]))

/* The bytes of a block and of a record that a trace of the old layout uses, and what may stand behind them. */
enum {
    OLD_BLOCK = POMURICA_OLD_BLOCK_SIZE,
    OLD_RECORD = POMURICA_OLD_STEP_SIZE,
    RUBBISH_BYTE = 0xC3
};

/* Feeding these bytes, at once and one by one, returns the number and leaves those words. */
static void expect_fed(const char *what, const struct pomurica_session *words, const uint8_t *bytes, size_t length,
                       uint32_t number, const struct pomurica_session *due)
{
    static struct fed fed;
    uint32_t last = number;

    resume(&fed, words, length);
    check(feed(&fed, bytes, length) == number && has_words(&fed, due), "%s, in one run", what);
    finish(&fed);
    resume(&fed, words, length);
    for (size_t i = 0; i < length; i++)
        last = feed(&fed, bytes + i, 1);
    check(last == number && has_words(&fed, due), "%s, byte by byte", what);
    finish(&fed);
}

/* Closing it gives this number, and the place and the Steps that it has. */
static void expect_closed(const struct pomurica_session *words, uint32_t number)
{
    const struct verdict due = { number, words->place, words->steps };
    static struct fed fed;

    resume(&fed, words, words->place);
    expect_closing(&fed, &due);
    finish(&fed);
}

/* The same session with rubbish behind the bytes that a trace of the old layout uses. */
static struct pomurica_session with_bytes_behind(struct pomurica_session words)
{
    memset(words.block + OLD_BLOCK, RUBBISH_BYTE, sizeof words.block - OLD_BLOCK);
    memset(words.unfinished + OLD_RECORD, RUBBISH_BYTE, sizeof words.unfinished - OLD_RECORD);
    return words;
}

/* Any number in closed counts as closed, and in fault as a fault. */
static void try_any_word(const uint8_t *trace, struct pomurica_session words, uint32_t any)
{
    const uint32_t number = words.stage == POMURICA_STAGE_OVER ? POMURICA_DONE : POMURICA_SHORT;

    words.closed = any;
    expect_fed("closed", &words, trace, trace_length(), POMURICA_CLOSED, &words);
    expect_closed(&words, number);
    words.fault = any;
    expect_fed("closed, with a fault", &words, trace, trace_length(), POMURICA_CLOSED, &words);
    words.closed = 0;
    expect_fed("a fault", &words, trace, trace_length(), any, &words);
    expect_closed(&words, any);
}

/* Any stage from 3 on counts as over, whatever is held; a fault then clears every byte. */
static void try_any_stage(const uint8_t *trace, struct pomurica_session words, uint32_t stage)
{
    struct pomurica_session due;

    words.stage = stage;
    due = faulted(words, POMURICA_TRAILING);
    expect_fed("over", &words, trace, trace_length(), POMURICA_TRAILING, &due);
    expect_fed("over, no bytes", &words, trace, 0, POMURICA_DONE, &words);
    expect_closed(&words, POMURICA_DONE);
}

static void run_any_words(const uint8_t *trace)
{
    static const uint32_t ANY[] = {
        1, 2, 3, 4, 5, 6, 7, 8, 9, 10, 11, 12, 13, 14, 15, 16, 99, 0x100, 0x10000, UINT32_C(1) << 31, UINT32_MAX
    };

    for (size_t length = 0; length <= trace_length(); length += POMURICA_END_SIZE)
        for (size_t i = 0; i < COUNT(ANY); i++) {
            const struct pomurica_session words = words_due(trace, length);

            try_any_word(trace, words, ANY[i]);
            if (ANY[i] >= POMURICA_STAGE_OVER) {
                try_any_stage(trace, words, ANY[i]);
                try_any_stage(trace, with_bytes_behind(words), ANY[i]);
            }
        }
}

/* What may stand where the record is put: rubbish, and before it what tells a Start's layout. */
static void put_rubbish(const uint8_t *trace, uint32_t record, struct pomurica_session *words)
{
    memset(words->unfinished, RUBBISH_BYTE, sizeof words->unfinished);
    memcpy(words->unfinished, trace + record_begin(record), HEAD_SIZE);
}

/* More held than the record due has: no byte is taken, whatever the words and bytes are. */
static void run_too_much_held(const uint8_t *trace)
{
    static const uint32_t MORE_HELD[] = { 0, 1, 4, 8, 100, 184, 188, 192, 200, 204, 0x10000, UINT32_C(1) << 31 };

    for (uint32_t record = 0; record < RECORDS; record++)
        for (size_t i = 0; i < COUNT(MORE_HELD); i++) {
            struct pomurica_session words = words_due(trace, record_begin(record));

            put_rubbish(trace, record, &words);
            words.held = record_end(record) - record_begin(record) + MORE_HELD[i];
            expect_fed("too much held", &words, trace, trace_length(), POMURICA_DONE, &words);
            expect_closed(&words, POMURICA_SHORT);
        }
}

/* Whatever stood in the room for the record, and wherever the trace is said to be, a right record leaves it so. */
static void run_odd_places(const uint8_t *trace)
{
    static const uint32_t PLACES[] = {
        0, 1, UINT32_MAX, 0u - POMURICA_END_SIZE, 0u - POMURICA_START_SIZE, 0u - POMURICA_OLD_START_SIZE,
        0u - POMURICA_STEP_SIZE, 0u - POMURICA_OLD_STEP_SIZE
    };
    const size_t used = step_size(is_arriving_in_old());

    for (uint32_t record = 0; record < RECORDS; record++)
        for (size_t i = 0; i < COUNT(PLACES); i++) {
            const uint32_t place = record_begin(record), size = record_end(record) - place;
            struct pomurica_session words = words_due(trace, place), due = words_due(trace, place + size);

            memset(words.unfinished, RUBBISH_BYTE, sizeof words.unfinished);
            memset(due.unfinished + used, RUBBISH_BYTE, sizeof due.unfinished - used);
            words.place = PLACES[i];
            due.place = PLACES[i] + size;
            expect_fed("an odd place", &words, trace + place, size, POMURICA_DONE, &due);
        }
}

/* A head that nobody looked at when it came is looked at with the record's last byte. */
static void run_odd_heads(const uint8_t *trace)
{
    for (uint32_t record = 0; record < RECORDS; record++)
        for (size_t held = HEAD_SIZE; held < HEAD_SIZE + 2; held++) {
            const uint32_t place = record_begin(record), size = record_end(record) - place;
            struct pomurica_session words = words_due(trace, place + held), due = words;

            words.unfinished[0] ^= 1;
            memcpy(due.unfinished, trace + place, size - 1);
            due.unfinished[0] ^= 1;
            due.held = size - 1;
            expect_fed("an odd head, not yet", &words, trace + place + held, size - 1 - held, POMURICA_DONE, &due);
            due = faulted(words, POMURICA_BAD_RECORD);
            expect_fed("an odd head", &words, trace + place + held, size - held, POMURICA_BAD_RECORD, &due);
        }
}

/* Steps and count at the ends of their range: the End has to have as many as were found, also where count is below. */
static void run_odd_counts(const uint8_t *trace)
{
    static const struct {
        uint32_t steps, count;
    } ODD[] = { { 1, 0 }, { 65536, 65535 }, { 65536, 65536 }, { UINT32_MAX, 0 }, { UINT32_MAX, UINT32_MAX } };
    const size_t step = record_begin(STEPS);

    for (size_t i = 0; i < COUNT(ODD); i++) {
        struct pomurica_session words = words_due(trace, end_place()), due = words_due(trace, trace_length());
        uint8_t end[POMURICA_END_SIZE];

        words.steps = due.steps = ODD[i].steps;
        words.count = due.count = ODD[i].count;
        memcpy(end, trace + end_place(), sizeof end);
        pomurica_put_word(end, POMURICA_RECORD_COUNT, ODD[i].steps);
        expect_fed("odd counts, as many as found", &words, end, sizeof end, POMURICA_DONE, &due);
        pomurica_put_word(end, POMURICA_RECORD_COUNT, ODD[i].steps - 1);
        due = faulted(words, POMURICA_BAD_COUNT);
        expect_fed("odd counts, one fewer", &words, end, sizeof end, POMURICA_BAD_COUNT, &due);
        words = words_due(trace, step);
        due = words_due(trace, end_place());
        words.steps = ODD[i].steps - 1;
        words.count = due.count = due.steps = ODD[i].steps;
        expect_fed("odd counts, the last Step", &words, trace + step, end_place() - step, POMURICA_DONE, &due);
    }
}

/* The same session with bytes of chance wherever none has come, and in the block as far as it is not of the trace. */
static struct pomurica_session with_any_behind(struct chance *chance, struct pomurica_session words)
{
    const size_t had = words.stage == POMURICA_STAGE_START ? 0 : block_size(is_arriving_in_old());

    any_bytes(chance, words.block + had, sizeof words.block - had);
    any_bytes(chance, words.unfinished + words.held, sizeof words.unfinished - words.held);
    return words;
}

/* What a session becomes with the last byte of a right record: the bytes behind those that an old trace uses stay. */
static struct pomurica_session gone_on(const uint8_t *trace, uint32_t record, const struct pomurica_session *words)
{
    const size_t block = block_size(is_arriving_in_old()), room = step_size(is_arriving_in_old());
    struct pomurica_session due = words_due(trace, record_end(record));

    memcpy(due.block + block, words->block + block, sizeof due.block - block);
    memcpy(due.unfinished + room, words->unfinished + room, sizeof due.unfinished - room);
    return due;
}

/* So many bytes of a record are held, and the others come: all but the last, and then that too. */
static void try_right_behind(struct chance *chance, const uint8_t *trace, uint32_t record, size_t held)
{
    const uint8_t *const rest = trace + record_begin(record) + held;
    const size_t size = record_end(record) - record_begin(record);
    const struct pomurica_session words = with_any_behind(chance, words_due(trace, record_begin(record) + held));
    struct pomurica_session due = words;

    due.held = (uint32_t)size - 1;
    memcpy(due.unfinished + held, rest, size - 1 - held);
    expect_fed("bytes behind, a record without its last byte", &words, rest, size - 1 - held, POMURICA_DONE, &due);
    due = gone_on(trace, record, &words);
    expect_fed("bytes behind, a right record", &words, rest, size - held, POMURICA_DONE, &due);
}

/* The same of a record with one byte changed, which is a fault: no byte is left. */
static void try_fault_behind(struct chance *chance, const uint8_t *trace, uint32_t record, size_t held, size_t byte,
                             uint32_t number)
{
    const size_t place = record_begin(record), size = record_end(record) - place;
    uint8_t changed[MOST_LENGTH];
    struct pomurica_session words, due;

    memcpy(changed, trace, trace_length());
    changed[place + byte] ^= 1;
    words = with_any_behind(chance, words_due(changed, place + held));
    due = faulted(words, number);
    expect_fed("bytes behind, a fault", &words, changed + place + held, size - held, number, &due);
}

/* Each record, with any number of its bytes held: right; wrong in its head; in a Start's n, or in the last byte. */
static void run_bytes_behind(struct chance *chance, const uint8_t *trace)
{
    const size_t over_most = sizeof(uint32_t) * POMURICA_RECORD_COUNT + sizeof(uint16_t); /* n and 65,536 */

    for (uint32_t record = 0; record < RECORDS; record++) {
        const size_t size = record_end(record) - record_begin(record), byte = record == 0 ? over_most : size - 1;
        const uint32_t number = record == 0 || record > STEPS ? POMURICA_BAD_COUNT : POMURICA_WRONG_STEP;

        for (size_t held = 0; held < size; held++) {
            try_right_behind(chance, trace, record, held);
            try_fault_behind(chance, trace, record, held, 0, POMURICA_BAD_RECORD);
            try_fault_behind(chance, trace, record, held, byte, number);
        }
    }
}

/* The End with a byte too many, which may come with it or by itself; the same of a session that closing ends. */
static void run_trailing_behind(struct chance *chance, const uint8_t *trace)
{
    uint8_t longer[MOST_LENGTH + 1] = { 0 };

    memcpy(longer, trace, trace_length());
    for (size_t length = end_place(); length <= trace_length(); length++) {
        const struct pomurica_session words = with_any_behind(chance, words_due(trace, length));
        const struct pomurica_session due = faulted(words_due(trace, trace_length()), POMURICA_TRAILING);
        const size_t left = trace_length() + 1 - length;

        expect_closed(&words, length < trace_length() ? POMURICA_SHORT : POMURICA_DONE);
        expect_fed("bytes behind, one too many", &words, longer + length, left, POMURICA_TRAILING, &due);
    }
}

/* A Start of which too few bytes have come to tell its kind, where the other layout's head stands: it plays no part. */
static void run_other_head_behind(const uint8_t *trace)
{
    for (size_t held = 0; held < HEAD_SIZE; held++) {
        const uint32_t other = is_arriving_in_old() ? POMURICA_START_HEAD : POMURICA_OLD_START_HEAD;
        struct pomurica_session words = words_due(trace, 0), due;

        pomurica_put_word(words.unfinished, POMURICA_RECORD_HEAD, other);
        memcpy(words.unfinished, trace, held);
        words.held = (uint32_t)held;
        words = with_bytes_behind(words);
        due = gone_on(trace, 0, &words);
        expect_fed("another head behind", &words, trace + held, record_end(0) - held, POMURICA_DONE, &due);
    }
}

/* A session of one layout that is fed the Steps of the other. */
static void run_other_stage(const uint8_t *trace)
{
    const uint32_t other = is_arriving_in_old() ? POMURICA_STAGE_NEXT : POMURICA_STAGE_OLD_NEXT;
    const size_t step = record_begin(1);
    struct pomurica_session words = words_due(trace, step), due;

    words.stage = other;
    words = with_bytes_behind(words);
    due = faulted(words, POMURICA_BAD_RECORD);
    expect_fed("the other layout", &words, trace + step, trace_length() - step, POMURICA_BAD_RECORD, &due);
}

/* All of it with a trace of one layout. */
static void run_in(bool old)
{
    const char *const layout = layout_name(old);
    struct chance chance = { .seed = 1, .old = old };
    static uint8_t trace[MOST_LENGTH];

    arrive_in(old);
    record_trace(&chance, STEPS, trace);
    group_of(layout, "any number as closed, as a fault and as a stage");
    run_any_words(trace);
    group_of(layout, "more held than the record due has");
    run_too_much_held(trace);
    group_of(layout, "any place, and rubbish where the record is put");
    run_odd_places(trace);
    group_of(layout, "a wrong head among the bytes held");
    run_odd_heads(trace);
    group_of(layout, "any counts");
    run_odd_counts(trace);
    group_of(layout, "a stage of the other one");
    run_other_stage(trace);
    group_of(layout, "any bytes behind those that have come");
    run_bytes_behind(&chance, trace);
    run_trailing_behind(&chance, trace);
    run_other_head_behind(trace);
}

int main(void)
{
    open_edge(MOST_LENGTH);
    run_in(false);
    run_in(true);
    return summary();
}
