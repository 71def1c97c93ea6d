/*
 * The checker behind the header against another, on traces of chance, honest
 * and damaged, of both layouts: number, place, Steps, guard bytes, and a trace
 * that stays as it was.
 *
 *     compare_traces [THOUSANDS SEED]
 *
 * The other is the second implementation's, unless OTHER_CHECK says otherwise.
 * Prints how often each number was given, and each answer of an accepted Step,
 * by layout, and fails where one was too seldom.
 */
#include "case_l.h"
#include "chance.h"
#include "edge.h"
#include "group.h"
#include "lent.h"
#include "numbers.h"
#include "pomurica.h"
#include "traces.h"

#include "../second/words.h"

#include <inttypes.h>
#include <stdio.h>
#include <stdlib.h>
#include <string.h>

/* Unless the compiler is told fast_check, the one of bench/. */
#ifndef OTHER_CHECK
#define OTHER_CHECK second_check
#endif

typedef uint32_t check_function(const uint8_t *, size_t, uint8_t *, size_t);

check_function OTHER_CHECK;

/* Unless the arguments say otherwise. */
#define THOUSANDS 40
#define SEED 1

/*
 * How often each number is given in a thousand traces, at least; how often each answer stands in an accepted Step, and
 * what only one layout knows: done there, and refused in the other one.  And in how many thousands a virtual interrupt is
 * taken in each way.
 */
#define SELDOM 10
#define SELDOM_ANSWER 3
#define SELDOM_KNOWN 1
#define THOUSANDS_TO_VIRTUAL 4

#define NUMBERS (TRAILING + 1)

/* How often each number was given, by layout and damage; a trace is of the new one if it opens with its kind. */
static unsigned long met[LAYOUTS][DAMAGES][NUMBERS];

/* How often each answer stood in an accepted Step; and, by whether it was done, what only one layout knows. */
static unsigned long met_answer[LAYOUTS][STEP_NUMBERS], met_debug[LAYOUTS][2], met_note[LAYOUTS][2], met_line[LAYOUTS][2];

/* How often an accepted Step took a virtual FIQ and a virtual IRQ, by whether VF or VI stood in HCR: else its line brought it. */
static unsigned long met_fiq[LAYOUTS][2], met_irq[LAYOUTS][2];

/* One call of a checker, and what came of it. */
struct call {
    struct lent report;
    uint32_t number;
    bool guards_kept, trace_kept;
};

static void call_check(check_function *judge, const uint8_t *trace, size_t length,
                       size_t report_len, struct call *call)
{
    static const uint8_t OLD_REPORT[LENT_MOST] = { 1, 2, 3, 4, 5, 6, 7, 8, 9, 10, 11, 12 };
    const uint8_t *lent_trace = lend_at_edge(trace, length);
    uint8_t *report = lend(&call->report, OLD_REPORT, report_len, length % 16);

    call->number = judge(lent_trace, length, report, report_len);
    call->guards_kept = take_back(&call->report);
    call->trace_kept = memcmp(lent_trace, trace, length) == 0;
}

/* What two calls on one trace do not have alike; NULL for nothing. */
static const char *difference(const struct call *one, const struct call *other, size_t report_len)
{
    if (one->number != other->number)
        return "the numbers differ";
    if (memcmp(bytes_of(&one->report), bytes_of(&other->report), report_len) != 0)
        return "the reports differ";
    if (!one->guards_kept || !other->guards_kept)
        return "a guard byte changed";
    return one->trace_kept && other->trace_kept ? NULL : "the trace changed";
}

/* Whether both checkers give the same; ours is then what the one behind the header gave. */
static bool agree(const uint8_t *trace, size_t length, size_t report_len, struct call *ours)
{
    struct call theirs;
    const char *what;

    call_check(pomurica_check, trace, length, report_len, ours);
    call_check(OTHER_CHECK, trace, length, report_len, &theirs);
    what = difference(ours, &theirs, report_len);
    return check(what == NULL, "%s; number %" PRIu32 ", the other %" PRIu32, what, ours->number, theirs.number);
}

/* Both give what is expected. */
static bool compare(const uint8_t *trace, size_t length, const struct expected *expected,
                    struct call *ours)
{
    const uint8_t *report;

    if (!agree(trace, length, REPORT_SIZE, ours))
        return false;
    if (!expected->known)
        return true;
    report = bytes_of(&ours->report);
    return check(get_word(report) == expected->number && get_word(report + 4) == expected->place &&
                     get_word(report + 8) == expected->steps,
                 "%" PRIu32 " %" PRIu32 " %" PRIu32 ", not %" PRIu32 " %" PRIu32 " %" PRIu32,
                 get_word(report), get_word(report + 4), get_word(report + 8),
                 expected->number, expected->place, expected->steps);
}

/* Worked case l, side by side, and the same in the new layout. */
static void compare_case_l(void)
{
    struct call ours;

    compare(OLD_SHORTEST, OLD_SHORTEST_SIZE, &(struct expected){ true, DONE, OLD_SHORTEST_SIZE, 0 }, &ours);
    compare(OLD_SHORTEST, OLD_SHORTEST_SIZE - 1, &(struct expected){ true, SHORT, OLD_SHORTEST_END, 0 }, &ours);
    compare(SHORTEST, SHORTEST_SIZE, &(struct expected){ true, DONE, SHORTEST_SIZE, 0 }, &ours);
    compare(SHORTEST, SHORTEST_SIZE - 1, &(struct expected){ true, SHORT, SHORTEST_END, 0 }, &ours);
    compare(SHORTEST, 0, &(struct expected){ true, SHORT, 0, 0 }, &ours);
}

/* A report of another size. */
static void compare_sizes(struct chance *chance, uint8_t *trace)
{
    struct expected expected;
    struct call ours;

    for (size_t report_len = 0; report_len <= LONGEST_TRIED; report_len++) {
        const size_t length = make_either(chance, HONEST, trace, &expected);

        agree(trace, length, report_len, &ours);
        if (report_len != REPORT_SIZE)
            check(ours.number == BAD_SIZE && is_unchanged(&ours.report),
                  "report of %zu bytes: number %" PRIu32, report_len, ours.number);
    }
}

/* The longest trace of a layout, and what can be wrong at its end. */
static void compare_longest(struct chance *chance, bool old)
{
    const uint32_t longest = old ? POMURICA_OLD_LONGEST_TRACE : POMURICA_LONGEST_TRACE;
    const uint32_t end = longest - POMURICA_END_SIZE, last = end - step_size(old);
    uint8_t *trace = malloc(longest + 1);
    struct call ours;

    if (!check(trace != NULL, "no memory"))
        return;
    chance->old = old;
    check(record_trace(chance, POMURICA_MOST_STEPS, trace) == longest, "not the longest");
    trace[longest] = 0;
    compare(trace, longest, &(struct expected){ true, DONE, longest, 65535 }, &ours);
    compare(trace, longest + 1, &(struct expected){ true, TRAILING, longest, 65535 }, &ours);
    compare(trace, longest - 1, &(struct expected){ true, SHORT, end, 65535 }, &ours);
    trace[end - 1] ^= 0x80;
    compare(trace, longest, &(struct expected){ true, WRONG_STEP, last, 65534 }, &ours);
    free(trace);
}

static enum layout layout_of(const uint8_t *trace, size_t length)
{
    return is_taken_for_old(trace, length) ? OLD_LAYOUT : NEW_LAYOUT;
}

/* A check that an accepted Step shows done; the block before it ends where it begins. */
static void meet_check(enum layout layout, const uint8_t *step)
{
    const uint32_t hcr = get_word(step - block_size(layout == OLD_LAYOUT) + 4 * HCR);
    const uint32_t which = get_word(step + STEP_VALUE) >> 16;

    met_fiq[layout][(hcr & HCR_VF) != 0] += which == POMURICA_WHICH_VIRTUAL_FIQ;
    met_irq[layout][(hcr & HCR_VI) != 0] += which == POMURICA_WHICH_VIRTUAL_IRQ;
}

static void meet_step(enum layout layout, const uint8_t *step)
{
    const uint32_t code = get_word(step + STEP_CODE), a = get_word(step + STEP_A);
    const uint32_t number = get_word(step + STEP_ANSWER);

    met_answer[layout][number]++;
    met_debug[layout][number == DONE] += code == CODE_PREFETCH_ABORT && a == ABORT_DEBUG;
    met_note[layout][number == DONE] += code == CODE_NOTE && a == HDCR;
    met_line[layout][number == DONE] += code == CODE_INTERRUPT_CHECK && (a & (LINE_VFIQ | LINE_VIRQ)) != 0;
    if (code == CODE_INTERRUPT_CHECK && number == DONE)
        meet_check(layout, step);
}

static void meet_answers(const uint8_t *trace, size_t length)
{
    const bool old = is_old(trace);
    const uint8_t *const end = trace + length - END_SIZE;

    for (const uint8_t *step = trace + start_size(old); step < end; step += step_size(old))
        meet_step(layout_of(trace, length), step);
}

static void compare_random(struct chance *chance, unsigned long count, uint8_t *trace)
{
    struct expected expected;
    struct call ours;

    for (unsigned long i = 0; i < count; i++) {
        const enum damage damage = (enum damage)(i % DAMAGES);
        const uint64_t seed = chance->seed;
        const size_t length = make_either(chance, damage, trace, &expected);

        if (compare(trace, length, &expected, &ours)) {
            met[layout_of(trace, length)][damage][ours.number]++;
            if (ours.number == DONE)
                meet_answers(trace, length);
        } else if (is_telling()) {
            printf("        %s, %zu bytes, made from seed %" PRIu64 "\n", DAMAGE_NAMES[damage],
                   length, seed);
        }
    }
}

static void show(enum layout layout, unsigned long seldom)
{
    static const uint32_t GIVEN[] = { DONE, SHORT, BAD_RECORD, BAD_COUNT, WRONG_STEP, TRAILING };
    const size_t given_count = sizeof GIVEN / sizeof GIVEN[0];

    printf("  %-36s", layout_name(layout == OLD_LAYOUT));
    for (size_t i = 0; i < given_count; i++)
        printf(" %10s", pomurica_number_name(GIVEN[i]));
    printf("\n");
    for (uint32_t damage = 0; damage < DAMAGES; damage++) {
        printf("  %-36s", DAMAGE_NAMES[damage]);
        for (size_t i = 0; i < given_count; i++)
            printf(" %10lu", met[layout][damage][GIVEN[i]]);
        printf("\n");
    }
    for (size_t i = 0; i < given_count; i++) {
        unsigned long times = 0;

        for (uint32_t damage = 0; damage < DAMAGES; damage++)
            times += met[layout][damage][GIVEN[i]];
        check(times >= seldom, "%s, %s: given %lu times", layout_name(layout == OLD_LAYOUT),
              pomurica_number_name(GIVEN[i]), times);
    }
}

static void show_answers(enum layout layout, unsigned long seldom)
{
    for (uint32_t number = 0; number < STEP_NUMBERS; number++) {
        const unsigned long times = met_answer[layout][number];
        const char *const name = pomurica_number_name(number);

        if (!is_of_step(number) || number == BAD_SIZE) {
            check(times == 0, "a Step with %s: accepted %lu times", name, times);
            continue;
        }
        printf("  a Step with %-24s %10lu\n", name, times);
        check(times >= seldom, "%s, a Step with %s: accepted %lu times", layout_name(layout == OLD_LAYOUT), name,
              times);
    }
}

/* What only one layout knows: done there, from a good block; refused in the other one, and never done. */
static void show_known(const char *what, enum layout layout, unsigned long (*times)[2], unsigned long seldom)
{
    const enum layout other = layout == OLD_LAYOUT ? NEW_LAYOUT : OLD_LAYOUT;

    printf("  %-36s %10lu %10lu\n", what, times[layout][true], times[other][false]);
    check(times[layout][true] >= seldom && times[other][false] >= seldom && times[other][true] == 0,
          "%s: done %lu times, in the %s refused %lu times and done %lu", what, times[layout][true],
          layout_name(other == OLD_LAYOUT), times[other][false], times[other][true]);
}

/* A virtual interrupt: in the new layout by its bit of HCR alone, in the old one by that and by its line alone. */
static void show_virtual(const char *what, unsigned long (*times)[2], unsigned long seldom)
{
    printf("  %-36s %10lu %10lu %10lu\n", what, times[NEW_LAYOUT][true], times[OLD_LAYOUT][true], times[OLD_LAYOUT][false]);
    check(times[NEW_LAYOUT][true] >= seldom && times[OLD_LAYOUT][true] >= seldom && times[OLD_LAYOUT][false] >= seldom &&
              times[NEW_LAYOUT][false] == 0,
          "%s: by HCR %lu times, in the old layout %lu, by its line there %lu times and in the new one %lu", what,
          times[NEW_LAYOUT][true], times[OLD_LAYOUT][true], times[OLD_LAYOUT][false], times[NEW_LAYOUT][false]);
}

static void show_met(unsigned long thousands)
{
    for (uint32_t layout = 0; layout < LAYOUTS; layout++) {
        show((enum layout)layout, SELDOM * thousands);
        show_answers((enum layout)layout, SELDOM_ANSWER * thousands);
    }
    printf("  %-36s %10s %10s\n", "known in one layout", "there done", "refused");
    show_known("debug abort, in the new one", NEW_LAYOUT, met_debug, SELDOM_KNOWN * thousands);
    show_known("note on HDCR, in the new one", NEW_LAYOUT, met_note, SELDOM_KNOWN * thousands);
    show_known("virtual line, in the old one", OLD_LAYOUT, met_line, SELDOM_KNOWN * thousands);
    printf("  %-36s %10s %10s %10s\n", "taken", "new, HCR", "old, HCR", "old, line");
    show_virtual("virtual FIQ", met_fiq, thousands / THOUSANDS_TO_VIRTUAL);
    show_virtual("virtual IRQ", met_irq, thousands / THOUSANDS_TO_VIRTUAL);
}

int main(int argc, char **argv)
{
    const unsigned long thousands = argc > 1 ? strtoul(argv[1], NULL, 10) : THOUSANDS;
    struct chance chance = { .seed = argc > 2 ? strtoull(argv[2], NULL, 10) : SEED };
    static uint8_t trace[MADE_SIZE];

    open_edge(POMURICA_LONGEST_TRACE + 1);
    printf("%lu thousand traces, seed %" PRIu64 "\n", thousands, chance.seed);
    group("worked case l, side by side");
    compare_case_l();
    group("a report of every size from 0 to 210");
    compare_sizes(&chance, trace);
    group("traces of chance, side by side, of every kind");
    compare_random(&chance, thousands * 1000, trace);
    show_met(thousands);
    group("the longest trace, side by side");
    compare_longest(&chance, false);
    group("the longest trace of the old layout, side by side");
    compare_longest(&chance, true);
    return summary();
}
