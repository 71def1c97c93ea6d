/*
 * The session behind the header against another, on traces of chance, of both
 * layouts, honest and damaged, cut by chance: the number of each feeding, every
 * byte of the session after it, the report of each closing, guard bytes, and runs
 * that stay as they were.  What is fed and closed is also what the checker behind
 * the header says of the whole, known with the byte with which it has to be.  Then
 * sessions that no feeding left.
 *
 *     compare_sessions [THOUSANDS SEED]
 *
 * The other is the second implementation's, unless OTHER_OPEN, OTHER_FEED and
 * OTHER_CLOSE say otherwise.  Prints how often each thing was met and fails
 * where one was met too seldom.
 */
#include "cuts.h"
#include "edge.h"
#include "group.h"
#include "numbers.h"
#include "sessions.h"

#include <inttypes.h>
#include <stdio.h>
#include <stdlib.h>
#include <string.h>

/* Unless the compiler is told fast_open, fast_feed and fast_close, those of bench/. */
#ifndef OTHER_FEED
#define OTHER_OPEN second_open
#define OTHER_FEED second_feed
#define OTHER_CLOSE second_close
#endif

open_function OTHER_OPEN;
feed_function OTHER_FEED;
close_function OTHER_CLOSE;

static const struct calls OURS = { pomurica_open, pomurica_feed, pomurica_close };
static const struct calls THEIRS = { OTHER_OPEN, OTHER_FEED, OTHER_CLOSE };

/* Unless the arguments say otherwise. */
#define THOUSANDS 100
#define SEED 1

enum {
    NUMBERS = LAST_NUMBER + 1,
    SHIFTS = 4, /* places in memory at which a session is lent */
    SELDOM = 5  /* how often each thing is met in a thousand cuts, at least */
};

/* Where the bytes of a run end in the record due. */
enum cut {
    BEFORE_RECORD, WITHIN_HEAD, BEHIND_HEAD, WITHIN_BODY,
    CUTS
};

/* What a run is counted as. */
enum kind {
    EMPTY, OF_ONE, OF_MANY, WHOLE_RECORD, MANY_RECORDS, RECORD_ENDED,
    FAULT_FIRST, FAULT_BETWEEN, FAULT_LAST, AFTER_FAULT, AFTER_CLOSING,
    KINDS
};
static const char *const KIND_NAMES[KINDS] = {
    [EMPTY] = "empty", [OF_ONE] = "of one byte", [OF_MANY] = "of 1,000 bytes and more",
    [WHOLE_RECORD] = "with a whole record", [MANY_RECORDS] = "with three whole records and more",
    [RECORD_ENDED] = "that ends a record begun before",
    [FAULT_FIRST] = "fault known with its first byte", [FAULT_BETWEEN] = "fault known in the middle",
    [FAULT_LAST] = "fault known with its last byte", [AFTER_FAULT] = "after a fault", [AFTER_CLOSING] = "after closing",
};

/* What a session that no feeding left is counted as. */
enum odd {
    ODD_STAGE, ODD_FAULT, ODD_CLOSED, TOO_MUCH_HELD, FEWER_THAN_FOUND, ODD_HEAD, NOT_CLEARED,
    BEHIND_OLD, OLD_WENT_ON, OLD_FAILED, WRAPPED, WENT_ON, ENDED,
    ODDS
};
static const char *const ODD_NAMES[ODDS] = {
    [ODD_STAGE] = "a stage above 3", [ODD_FAULT] = "a fault before", [ODD_CLOSED] = "closed before",
    [TOO_MUCH_HELD] = "more held than is due", [FEWER_THAN_FOUND] = "counts fewer Steps than it found",
    [ODD_HEAD] = "holds a wrong head", [NOT_CLEARED] = "rubbish behind what it holds",
    [BEHIND_OLD] = "bytes behind an old block or record", [OLD_WENT_ON] = "they stayed, a record was right",
    [OLD_FAILED] = "they went, a fault became known",
    [WRAPPED] = "its place wrapped", [WENT_ON] = "a record was found right", [ENDED] = "was over at closing",
};

/* How often each thing was met. */
static struct {
    unsigned long fed[NUMBERS], closed[NUMBERS]; /* numbers of feedings and of closings */
    unsigned long cut[2][DUES][CUTS], run[KINDS]; /* cuts of the old layout apart, where the stage tells it */
    unsigned long odd[ODDS], odd_fed[NUMBERS], odd_closed[NUMBERS];
} met;

/* ---------------------------------------------------------- Side by side */

/* One session on both sides. */
struct pair {
    struct fed ours, theirs;
    struct closing closing; /* the last one of ours */
};

/* Whether the two numbers, and then every byte of both sessions, are alike. */
static bool agree(const struct pair *pair, const char *what, uint32_t number, uint32_t other)
{
    return check(number == other, "%s: number %" PRIu32 ", the other %" PRIu32, what, number, other) &&
           check(are_same(&pair->ours.session, &pair->theirs.session), "%s, %" PRIu32 ": the sessions differ", what, number);
}

static void lend_pair(struct chance *chance, struct pair *pair, const struct pomurica_session *words)
{
    const uint32_t shift = any_below(chance, SHIFTS);

    lend_session(&pair->ours, &OURS, words, shift);
    lend_session(&pair->theirs, &THEIRS, words, shift);
}

static bool take_pair_back(struct pair *pair)
{
    const bool ours = take_session_back(&pair->ours), theirs = take_session_back(&pair->theirs);

    return check(ours && theirs, "a guard byte of a session changed");
}

static bool open_pair(struct pair *pair)
{
    const uint32_t number = open_session(&pair->ours), other = open_session(&pair->theirs);

    return agree(pair, "opening", number, other);
}

/* Feeds both; the number is then ours. */
static bool feed_pair(struct pair *pair, const uint8_t *bytes, size_t length, uint32_t *number)
{
    const uint8_t *run = lend_at_edge(bytes, length);
    uint32_t other;

    *number = feed_session(&pair->ours, run, length);
    other = feed_session(&pair->theirs, run, length);
    return agree(pair, "feeding", *number, other) && check(memcmp(run, bytes, length) == 0, "a run changed");
}

static bool close_pair(struct pair *pair, size_t report_len)
{
    struct closing theirs;

    close_session(&pair->ours, report_len, &pair->closing);
    close_session(&pair->theirs, report_len, &theirs);
    return agree(pair, "closing", pair->closing.number, theirs.number) &&
           check(are_same(&pair->closing.report, &theirs.report), "closing: the reports differ") &&
           check(pair->closing.guards_kept && theirs.guards_kept, "closing: a guard byte of a report changed");
}

/* ------------------------------------------------------- What is expected */

/* What the checker says of a whole trace, and with how many bytes a fault of it is known; with more than it has, if none is. */
struct whole {
    uint8_t report[POMURICA_REPORT_SIZE];
    uint32_t number;
    size_t known;
};

static size_t bytes_until_known(bool old, uint32_t number, uint32_t place)
{
    switch (number) {
    case POMURICA_BAD_RECORD: return (size_t)place + HEAD_SIZE;
    case POMURICA_BAD_COUNT: return (size_t)place + (place == 0 ? start_size(old) : END_SIZE);
    case POMURICA_WRONG_STEP: return (size_t)place + step_size(old);
    case POMURICA_TRAILING: return (size_t)place + 1;
    default: return SIZE_MAX;
    }
}

static struct whole check_whole(const uint8_t *trace, size_t length)
{
    struct whole whole;

    whole.number = pomurica_check(trace, length, whole.report, sizeof whole.report);
    whole.known = bytes_until_known(is_taken_for_old(trace, length), whole.number,
                                    pomurica_get_word(whole.report, POMURICA_REPORT_PLACE));
    return whole;
}

/* ----------------------------------------------------------- What is met */

/* A fault is known within a run that begins at this byte. */
static void meet_fault(size_t from, size_t length, size_t known)
{
    if (from >= known)
        met.run[AFTER_FAULT]++;
    else if (from + length >= known)
        met.run[known == from + 1 ? FAULT_FIRST : known == from + length ? FAULT_LAST : FAULT_BETWEEN]++;
}

static enum cut cut_of(uint32_t held)
{
    if (held == 0)
        return BEFORE_RECORD;
    return held < HEAD_SIZE ? WITHIN_HEAD : held == HEAD_SIZE ? BEHIND_HEAD : WITHIN_BODY;
}

/* Where the first record begins that begins in a run.  Before its kind has come, a Start may be as large as any. */
static size_t first_begun(const struct pomurica_session *before)
{
    if (before->held == 0)
        return before->place;
    return before->place + (before->held < HEAD_SIZE && due_of(before) == DUE_START ? START_SIZE : size_due(before));
}

/* How the records lie to a run: by the words before it and after it, while no fault is known. */
static void meet_records(const struct pomurica_session *before, const struct pomurica_session *after)
{
    const size_t first = first_begun(before);

    met.run[RECORD_ENDED] += before->held != 0 && after->place != before->place;
    met.run[WHOLE_RECORD] += after->place > first;
    met.run[MANY_RECORDS] += after->place >= first + 3 * STEP_SIZE;
    met.cut[after->stage == POMURICA_STAGE_OLD_NEXT][due_of(after)][cut_of(after->held)]++;
}

static void meet_run(const struct pomurica_session *before, const struct pair *pair, size_t length, uint32_t number)
{
    const struct pomurica_session after = words_of(&pair->ours);

    met.fed[number]++;
    met.run[EMPTY] += length == 0;
    met.run[OF_ONE] += length == 1;
    met.run[OF_MANY] += length >= 1000;
    if (number == POMURICA_DONE)
        meet_records(before, &after);
}

/* ------------------------------------------------------------- One trace */

/* The next run: the number is 0 before the fault is known, and the fault's from then on. */
static bool compare_run(struct pair *pair, const uint8_t *bytes, size_t from, size_t length, const struct whole *whole)
{
    const uint32_t due = from + length < whole->known ? POMURICA_DONE : whole->number;
    const struct pomurica_session before = words_of(&pair->ours);
    uint32_t number;

    if (!feed_pair(pair, bytes + from, length, &number) ||
        !check(number == due, "feeding: number %" PRIu32 ", by the whole %" PRIu32, number, due))
        return false;
    meet_run(&before, pair, length, number);
    meet_fault(from, length, whole->known);
    return true;
}

static bool compare_runs(struct chance *chance, struct pair *pair, const uint8_t *trace, size_t length,
                         const struct whole *whole)
{
    const enum manner manner = any_manner(chance);
    size_t from = 0;

    while (from < length) {
        const size_t run = any_run(chance, manner, length - from);

        if (!compare_run(pair, trace, from, run, whole))
            return false;
        from += run;
    }
    return !one_in(chance, 8) || compare_run(pair, trace, length, 0, whole);
}

/* Closing, first with a report of another size now and then, gives what the checker gives. */
static bool compare_closing(struct chance *chance, struct pair *pair, const struct whole *whole)
{
    const size_t other_size = any_below(chance, LONGEST_TRIED + 1);

    if (one_in(chance, 8) && other_size != POMURICA_REPORT_SIZE &&
        !(close_pair(pair, other_size) && check(is_unchanged(&pair->closing.report), "BAD_SIZE, and a report changed")))
        return false;
    if (!close_pair(pair, POMURICA_REPORT_SIZE))
        return false;
    return check(memcmp(bytes_of(&pair->closing.report), whole->report, POMURICA_REPORT_SIZE) == 0,
                 "closing: not the report of the whole, %" PRIu32, whole->number) &&
           check(pair->closing.number == whole->number, "closing: number %" PRIu32 ", by the whole %" PRIu32,
                 pair->closing.number, whole->number);
}

/* After closing: 14 for bytes and for none, and the same report again. */
static bool compare_closed(struct chance *chance, struct pair *pair, const uint8_t *trace, size_t length,
                           const struct whole *whole)
{
    const struct pomurica_session before = words_of(&pair->ours);
    uint32_t number;

    if (!feed_pair(pair, trace, any_run(chance, MIXED, length), &number) ||
        !check(number == POMURICA_CLOSED, "closed: number %" PRIu32, number) ||
        !check(has_words(&pair->ours, &before), "closed: feeding changed the session"))
        return false;
    met.fed[number]++;
    met.run[AFTER_CLOSING]++;
    return compare_closing(chance, pair, whole) && check(has_words(&pair->ours, &before), "closing again changed the session");
}

static bool compare_trace(struct chance *chance, struct pair *pair, const uint8_t *trace, size_t length)
{
    const struct whole whole = check_whole(trace, length);

    if (!open_pair(pair) || !compare_runs(chance, pair, trace, length, &whole) || !compare_closing(chance, pair, &whole))
        return false;
    met.closed[whole.number]++;
    return !one_in(chance, 4) || compare_closed(chance, pair, trace, length, &whole);
}

/* Opens a session of any words, and takes it back whatever came of it. */
static bool compare_cut(struct chance *chance, const uint8_t *trace, size_t length)
{
    struct pomurica_session rubbish;
    static struct pair pair;
    bool alike;

    any_bytes(chance, (uint8_t *)&rubbish, sizeof rubbish);
    lend_pair(chance, &pair, &rubbish);
    alike = compare_trace(chance, &pair, trace, length);
    return take_pair_back(&pair) && alike;
}

static void compare_random(struct chance *chance, unsigned long count)
{
    static uint8_t trace[MADE_SIZE];
    struct expected expected;

    for (unsigned long i = 0; i < count; i++) {
        const enum damage damage = (enum damage)(i % DAMAGES);
        const uint64_t seed = chance->seed;
        const size_t length = make_either(chance, damage, trace, &expected);

        if (!compare_cut(chance, trace, length) && is_telling())
            printf("        %s, %zu bytes, made from seed %" PRIu64 "\n", DAMAGE_NAMES[damage], length, seed);
    }
}

/* The longest trace of a layout, and one byte more. */
static void compare_longest(struct chance *chance, bool old)
{
    const size_t longest = old ? POMURICA_OLD_LONGEST_TRACE : POMURICA_LONGEST_TRACE;
    uint8_t *trace = malloc(longest + 1);

    if (!check(trace != NULL, "no memory"))
        return;
    chance->old = old;
    check(record_trace(chance, POMURICA_MOST_STEPS, trace) == longest, "not the longest");
    trace[longest] = 0;
    compare_cut(chance, trace, longest);
    compare_cut(chance, trace, longest + 1);
    free(trace);
}

/* --------------------------------------- Sessions that no feeding left */

/* Whether bytes lie in the room for the record where none has come. */
static bool is_not_cleared(const struct pomurica_session *words)
{
    for (size_t i = words->held; i < sizeof words->unfinished; i++)
        if (words->unfinished[i] != 0)
            return true;
    return false;
}

static bool is_odd_head(const struct pomurica_session *words)
{
    return words->held >= HEAD_SIZE && words->held < size_due(words) &&
           pomurica_get_word(words->unfinished, POMURICA_RECORD_HEAD) != head_due(words);
}

/* The words behind those that a trace of the old layout uses: of the block, and of the room for the record. */
static uint32_t behind_block(const struct pomurica_session *words)
{
    return pomurica_get_word(words->block, POMURICA_OLD_PLACES);
}

static uint32_t behind_record(const struct pomurica_session *words)
{
    return pomurica_get_word(words->unfinished, POMURICA_OLD_STEP_SIZE / sizeof(uint32_t));
}

/* Whether a session of the old layout has bytes there. */
static bool has_bytes_behind(const struct pomurica_session *words)
{
    return words->stage == POMURICA_STAGE_OLD_NEXT && (behind_block(words) != 0 || behind_record(words) != 0);
}

/* And whether they stayed, or went. */
static bool keeps_bytes_behind(const struct pomurica_session *words, const struct pomurica_session *after)
{
    return has_bytes_behind(words) && behind_block(after) == behind_block(words) &&
           behind_record(after) == behind_record(words);
}

static bool loses_bytes_behind(const struct pomurica_session *words, const struct pomurica_session *after)
{
    return has_bytes_behind(words) && behind_block(after) == 0 && behind_record(after) == 0;
}

/* What the words are before anything is fed; of those that are not closed and have no fault. */
static void meet_odd(const struct pomurica_session *words)
{
    met.odd[ODD_CLOSED] += words->closed != 0;
    met.odd[ODD_FAULT] += words->fault != 0;
    if (words->closed != 0 || words->fault != 0)
        return;
    met.odd[ODD_STAGE] += words->stage > POMURICA_STAGE_OVER;
    met.odd[TOO_MUCH_HELD] += due_of(words) != DUE_NONE && words->held >= size_due(words);
    met.odd[FEWER_THAN_FOUND] += due_of(words) == DUE_END && words->count < words->steps;
    met.odd[ODD_HEAD] += is_odd_head(words);
    met.odd[NOT_CLEARED] += is_not_cleared(words);
    met.odd[BEHIND_OLD] += has_bytes_behind(words);
}

/* A number by which to count; a fault that nobody gave may be any. */
static uint32_t counted_as(uint32_t number)
{
    return number < NUMBERS ? number : POMURICA_BAD_SIZE;
}

/* What became of them. */
static void meet_odd_closing(const struct pomurica_session *words, const struct pair *pair)
{
    const struct pomurica_session after = words_of(&pair->ours);

    met.odd_closed[counted_as(pair->closing.number)]++;
    met.odd[OLD_WENT_ON] += keeps_bytes_behind(words, &after) && after.place != words->place;
    met.odd[OLD_FAILED] += loses_bytes_behind(words, &after) && after.fault != words->fault;
    met.odd[WRAPPED] += after.place < words->place;
    met.odd[WENT_ON] += after.place != words->place;
    met.odd[ENDED] += pair->closing.number == POMURICA_DONE;
}

static bool compare_odd(struct chance *chance, struct pair *pair, const struct unopened *unopened)
{
    const enum manner manner = any_manner(chance);
    size_t from = 0;

    while (from < unopened->length) {
        const size_t run = any_run(chance, manner, unopened->length - from);
        uint32_t number;

        if (!feed_pair(pair, unopened->bytes + from, run, &number))
            return false;
        met.odd_fed[counted_as(number)]++;
        from += run;
    }
    if (!close_pair(pair, POMURICA_REPORT_SIZE))
        return false;
    meet_odd_closing(&unopened->words, pair);
    return true;
}

static void compare_unopened(struct chance *chance, unsigned long count)
{
    static struct unopened unopened;
    static struct pair pair;

    for (unsigned long i = 0; i < count; i++) {
        const uint64_t seed = chance->seed;
        bool alike;

        any_unopened(chance, &unopened);
        meet_odd(&unopened.words);
        lend_pair(chance, &pair, &unopened.words);
        alike = compare_odd(chance, &pair, &unopened);
        if (!(take_pair_back(&pair) && alike) && is_telling())
            printf("        stage %" PRIu32 ", %" PRIu32 " held, %zu bytes, made from seed %" PRIu64 "\n",
                   unopened.words.stage, unopened.words.held, unopened.length, seed);
    }
}

/* ------------------------------------------------------------------- All */

/* Prints a count, and checks that it is not too small. */
static void show(const char *what, const char *name, unsigned long times, unsigned long seldom)
{
    printf("  %-16s %-34s %9lu\n", what, name, times);
    check(times >= seldom, "%s %s: met %lu times, fewer than %lu", what, name, times, seldom);
}

static void show_numbers(const char *feeding, const unsigned long *fed, const char *closing, const unsigned long *closed,
                         unsigned long seldom)
{
    static const uint32_t FED[] = {
        POMURICA_DONE, POMURICA_BAD_RECORD, POMURICA_BAD_COUNT, POMURICA_WRONG_STEP, POMURICA_TRAILING, POMURICA_CLOSED
    };
    static const uint32_t CLOSED[] = {
        POMURICA_DONE, POMURICA_SHORT, POMURICA_BAD_RECORD, POMURICA_BAD_COUNT, POMURICA_WRONG_STEP, POMURICA_TRAILING
    };

    for (size_t i = 0; i < sizeof FED / sizeof FED[0]; i++)
        show(feeding, pomurica_number_name(FED[i]), fed[FED[i]], seldom);
    for (size_t i = 0; i < sizeof CLOSED / sizeof CLOSED[0]; i++)
        show(closing, pomurica_number_name(CLOSED[i]), closed[CLOSED[i]], seldom);
}

/* Behind the End there is no record that could be cut; a Start's layout is not in the stage. */
static void show_cuts(unsigned long seldom)
{
    static const char *const DUE_NAMES[2][DUES] = {
        { "Start", "Step", "End", "behind the End" }, { "", "old Step", "End, old trace", "" },
    };
    static const char *const CUT_NAMES[CUTS] = { "run ends before it", "in its head", "right behind its head", "in its body" };

    for (uint32_t old = 0; old <= 1; old++)
        for (uint32_t due = old ? DUE_STEP : DUE_START; due < DUE_NONE; due++)
            for (uint32_t cut = 0; cut < CUTS; cut++)
                show(DUE_NAMES[old][due], CUT_NAMES[cut], met.cut[old][due][cut], seldom);
    show(DUE_NAMES[0][DUE_NONE], CUT_NAMES[BEFORE_RECORD], met.cut[0][DUE_NONE][BEFORE_RECORD], seldom);
}

static void show_met(unsigned long thousands)
{
    const unsigned long seldom = SELDOM * thousands;

    show_numbers("feeding", met.fed, "closing", met.closed, seldom);
    show_cuts(seldom);
    for (uint32_t kind = 0; kind < KINDS; kind++)
        show("run", KIND_NAMES[kind], met.run[kind], seldom);
    show_numbers("odd, feeding", met.odd_fed, "odd, closing", met.odd_closed, seldom);
    for (uint32_t odd = 0; odd < ODDS; odd++)
        show("odd", ODD_NAMES[odd], met.odd[odd], seldom);
}

int main(int argc, char **argv)
{
    const unsigned long thousands = argc > 1 ? strtoul(argv[1], NULL, 10) : THOUSANDS;
    struct chance chance = { .seed = argc > 2 ? strtoull(argv[2], NULL, 10) : SEED };

    open_edge(POMURICA_LONGEST_TRACE + 1);
    printf("%lu thousand cuts, seed %" PRIu64 "\n", thousands, chance.seed);
    group("traces of chance, cut by chance, side by side");
    compare_random(&chance, thousands * 1000);
    group("sessions that no feeding left, side by side");
    compare_unopened(&chance, thousands * 1000);
    group("everything met often enough");
    show_met(thousands);
    group("the longest trace, cut by chance, side by side");
    compare_longest(&chance, false);
    group("the longest trace of the old layout, cut by chance, side by side");
    compare_longest(&chance, true);
    return summary();
}
