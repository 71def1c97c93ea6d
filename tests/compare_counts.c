/*
 * The counts behind the header against others: traces of chance, honest and
 * damaged, counted one after another onto counts of chance, and the lines of
 * each sum.  Number, every byte, guard bytes, and a trace that stays as it was.
 *
 *     compare_counts [THOUSANDS SEED]
 *
 * The others are the second implementation's, unless OTHER_COUNT and
 * OTHER_LINES say otherwise.  Prints how often each thing was counted and fails
 * where one was too seldom.
 */
#include "chance.h"
#include "counting.h"
#include "edge.h"
#include "group.h"
#include "pomurica.h"
#include "traces.h"

#include <inttypes.h>
#include <stdio.h>
#include <stdlib.h>
#include <string.h>

/* Unless the compiler is told plain_count and plain_lines. */
#ifndef OTHER_COUNT
#define OTHER_COUNT second_count
#define OTHER_LINES second_count_lines
#endif

count_function OTHER_COUNT;
lines_function OTHER_LINES;

/* Unless the arguments say otherwise. */
#define THOUSANDS 40
#define SEED 1

enum {
    WORDS = POMURICA_COUNTS_SIZE / 4,
    NUMBERS = POMURICA_NO_ROOM + 1,
    IN_A_ROW = 8, /* traces that are counted onto one set of counts */
    SELDOM = 1    /* how often each thing is met in a thousand traces, at least */
};

/* What of each group the rules can bring about, a bit for each number. */
#define BIT(number) (UINT32_C(1) << (number))
static const uint32_t REACHED[POMURICA_GROUPS] = {
    BIT(POMURICA_EVENT_RETURN + 1) - 1,
    ((BIT(POMURICA_NO_RIGHT + 1) - 1) & ~BIT(POMURICA_BAD_SIZE)) | BIT(POMURICA_DISABLED) | BIT(POMURICA_OWN_REGISTER),
    BIT(POMURICA_MODE_FIQ) | BIT(POMURICA_MODE_IRQ) | BIT(POMURICA_MODE_SUPERVISOR) | BIT(POMURICA_MODE_MONITOR) |
        BIT(POMURICA_MODE_ABORT) | BIT(POMURICA_MODE_HYP) | BIT(POMURICA_MODE_UNDEFINED),
    BIT(POMURICA_WHICH_VIRTUAL_IRQ + 1) - 1,
};

/* What was met: Steps of each class, and each number of both calls. */
static struct {
    unsigned long steps[WORDS], count[NUMBERS], lines[NUMBERS];
    unsigned long filled; /* a count became 4,294,967,295 */
} met;

/* ------------------------------------------------------------ One trace */

/* Whether both count the trace alike; ours is then what the one behind the header did. */
static bool agree_on_count(const uint8_t *trace, size_t length, const uint8_t *counts, size_t counts_len,
                           struct counted *ours)
{
    const uint8_t *lent = lend_at_edge(trace, length);
    struct counted theirs;
    const char *what;

    call_count(pomurica_count, lent, length, counts, counts_len, ours);
    call_count(OTHER_COUNT, lent, length, counts, counts_len, &theirs);
    what = count_difference(ours, &theirs);
    if (what == NULL && memcmp(lent, trace, length) != 0)
        what = "the trace changed";
    return check(what == NULL, "%s; number %" PRIu32 ", the other %" PRIu32, what, ours->number, theirs.number);
}

/* What a word gained. */
static uint32_t gain_of(const struct counted *counted, size_t word)
{
    return pomurica_get_word(bytes_of(&counted->counts), word) - pomurica_get_word(counted->counts.before, word);
}

/* By code and by answer, every Step is counted once; how many there are, the trace's own Start says. */
static bool is_every_step_counted(const uint8_t *trace, const struct counted *counted)
{
    const uint32_t n = pomurica_get_word(trace, POMURICA_RECORD_COUNT);
    uint64_t by_code = 0, by_answer = 0;

    for (size_t i = 0; i < POMURICA_GROUP_SIZE; i++) {
        by_code += gain_of(counted, POMURICA_GROUP_SIZE * (POMURICA_GROUP_CODE - 1) + i);
        by_answer += gain_of(counted, POMURICA_GROUP_SIZE * (POMURICA_GROUP_ANSWER - 1) + i);
    }
    return check(by_code == n && by_answer == n, "%" PRIu32 " Steps, %" PRIu64 " counted by code, %" PRIu64 " by answer",
                 n, by_code, by_answer);
}

static void meet_count(const struct counted *counted)
{
    met.count[counted->number]++;
    if (counted->number != POMURICA_DONE)
        return;
    for (size_t word = 0; word < WORDS; word++) {
        const uint32_t gain = gain_of(counted, word);

        met.steps[word] += gain;
        met.filled += gain != 0 && pomurica_get_word(bytes_of(&counted->counts), word) == UINT32_MAX;
    }
}

/* Both give the same, and it is what is plain of the trace: its own number, all its Steps, or nothing. */
static bool compare_count(const uint8_t *trace, size_t length, const struct expected *expected,
                          const uint8_t *counts, size_t counts_len, struct counted *ours)
{
    if (!agree_on_count(trace, length, counts, counts_len, ours))
        return false;
    meet_count(ours);
    if (ours->number == POMURICA_DONE && !is_every_step_counted(trace, ours))
        return false;
    if (ours->number != POMURICA_DONE && !check(is_unchanged(&ours->counts), "refused, and the counts changed"))
        return false;
    if (!expected->known || ours->number == POMURICA_FULL || counts_len != POMURICA_COUNTS_SIZE)
        return true;
    return check(ours->number == expected->number, "number %" PRIu32 ", not %" PRIu32, ours->number, expected->number);
}

/* ------------------------------------------------------------ The lines */

static bool agree_on_lines(const uint8_t *counts, struct sizes sizes, struct listed *ours)
{
    struct listed theirs;
    const char *what;

    call_lines(pomurica_count_lines, counts, sizes, ours);
    call_lines(OTHER_LINES, counts, sizes, &theirs);
    what = lines_difference(ours, &theirs);
    if (!check(what == NULL, "%s; number %" PRIu32 ", the other %" PRIu32, what, ours->number, theirs.number))
        return false;
    met.lines[ours->number]++;
    return true;
}

/* The lines in every kind of room; how long they are, the first call says. */
static void compare_lines(struct chance *chance, const uint8_t *counts)
{
    struct listed ours;
    size_t length = 0;

    for (uint32_t room = 0; room < ROOMS; room++) {
        if (!agree_on_lines(counts, any_sizes(chance, (enum room)room, length), &ours))
            return;
        if (room == ENOUGH)
            length = pomurica_get_word(bytes_of(&ours.answer), POMURICA_ANSWER_VALUE);
    }
}

/* ------------------------------------------------------------------ All */

/* One trace more; the counts become the sums. */
static void compare_one(struct chance *chance, uint8_t *counts)
{
    static uint8_t trace[MADE_SIZE];
    const uint64_t seed = chance->seed;
    const size_t counts_len = any_counts_size(chance);
    struct expected expected;
    const size_t length = any_counted_trace(chance, trace, &expected);
    struct counted ours;

    if (!compare_count(trace, length, &expected, counts, counts_len, &ours)) {
        if (is_telling())
            printf("        %zu bytes, made from seed %" PRIu64 "\n", length, seed);
        return;
    }
    if (ours.number != POMURICA_DONE)
        return;
    memcpy(counts, bytes_of(&ours.counts), POMURICA_COUNTS_SIZE);
    compare_lines(chance, counts);
}

static void compare_random(struct chance *chance, unsigned long count)
{
    static uint8_t counts[LENT_MOST];

    for (unsigned long i = 0; i < count; i++) {
        if (i % IN_A_ROW == 0) {
            any_counts(chance, counts);
            compare_lines(chance, counts);
        }
        compare_one(chance, counts);
    }
}

/* The longest trace there is, onto nothing, onto counts that it just fills, and with one more in the last of its classes. */
static void compare_longest(struct chance *chance)
{
    const struct expected accepted = { .known = true, .number = POMURICA_DONE };
    const size_t length = POMURICA_LONGEST_TRACE;
    uint8_t counts[POMURICA_COUNTS_SIZE] = { 0 };
    uint8_t *trace = malloc(length);
    struct counted ours;
    size_t last = 0;

    if (!check(trace != NULL, "no memory"))
        return;
    check(record_trace(chance, POMURICA_MOST_STEPS, trace) == length, "not the longest");
    compare_count(trace, length, &accepted, counts, sizeof counts, &ours);
    for (size_t word = 0; word < WORDS; word++) {
        pomurica_put_word(counts, word, UINT32_MAX - gain_of(&ours, word));
        last = gain_of(&ours, word) != 0 ? word : last;
    }
    compare_count(trace, length, &accepted, counts, sizeof counts, &ours);
    check(ours.number == POMURICA_DONE, "number %" PRIu32 " where all fits", ours.number);
    pomurica_put_word(counts, last, pomurica_get_word(counts, last) + 1);
    compare_count(trace, length, &accepted, counts, sizeof counts, &ours);
    check(ours.number == POMURICA_FULL, "number %" PRIu32 " where one count does not fit", ours.number);
    free(trace);
}

/* Prints a count, and checks that it is not too small. */
static void show(const char *name, uint32_t number, unsigned long times, unsigned long seldom)
{
    printf("  %-12s %2" PRIu32 " %9lu\n", name, number, times);
    check(times >= seldom, "%s %" PRIu32 ": met %lu times, fewer than %lu", name, number, times, seldom);
}

static void show_steps(unsigned long seldom)
{
    static const char *const NAMES[POMURICA_GROUPS] = { "code", "answer", "target", "taken" };

    for (uint32_t word = 0; word < WORDS; word++) {
        const uint32_t group = word / POMURICA_GROUP_SIZE, number = word % POMURICA_GROUP_SIZE;

        if ((REACHED[group] & BIT(number)) != 0)
            show(NAMES[group], number, met.steps[word], seldom);
        else
            check(met.steps[word] == 0, "%s %" PRIu32 ": met %lu times", NAMES[group], number, met.steps[word]);
    }
}

static void show_met(unsigned long thousands)
{
    const unsigned long seldom = SELDOM * thousands;

    show_steps(seldom);
    show("counting", POMURICA_DONE, met.count[POMURICA_DONE], seldom);
    show("counting", POMURICA_BAD_SIZE, met.count[POMURICA_BAD_SIZE], seldom);
    for (uint32_t number = POMURICA_SHORT; number <= POMURICA_FULL; number++)
        show("counting", number, met.count[number], seldom);
    show("lines", POMURICA_DONE, met.lines[POMURICA_DONE], seldom);
    show("lines", POMURICA_BAD_SIZE, met.lines[POMURICA_BAD_SIZE], seldom);
    show("lines", POMURICA_NO_ROOM, met.lines[POMURICA_NO_ROOM], seldom);
    show("just full", 0, met.filled, seldom);
}

int main(int argc, char **argv)
{
    const unsigned long thousands = argc > 1 ? strtoul(argv[1], NULL, 10) : THOUSANDS;
    struct chance chance = { .seed = argc > 2 ? strtoull(argv[2], NULL, 10) : SEED };

    open_edge(POMURICA_LONGEST_TRACE);
    printf("%lu thousand traces, seed %" PRIu64 "\n", thousands, chance.seed);
    group("traces of chance, counted side by side, and the lines");
    compare_random(&chance, thousands * 1000);
    group("everything met often enough");
    show_met(thousands);
    group("the longest trace, counted side by side");
    compare_longest(&chance);
    return summary();
}
