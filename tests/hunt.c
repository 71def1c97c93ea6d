/*
 * A mutant of the second implementation against the second implementation, on
 * the questions and traces that the comparisons use, up to the first
 * difference: so many steps, so many lists of events, so many traces to judge,
 * so many to count, so many sessions, so many lists to record, and so many
 * instruction words to read and to write.
 *
 *     hunt STEPS LISTS TRACES COUNTED SESSIONS RECORDED INSTRUCTIONS SEED
 *
 * Status 0: no difference was found; 3: one was.  A mutant that does not come
 * to an end, or does what no step may, is ended by a signal.
 */
#define _POSIX_C_SOURCE 200809L

#include "any_list.h"
#include "any_recording.h"
#include "any_session.h"
#include "counting.h"
#include "edge.h"
#include "encoding.h"
#include "question.h"
#include "traces.h"

#include "../second/second.h"
#include "../second/words.h"

#include <stdio.h>
#include <stdlib.h>
#include <string.h>
#include <unistd.h>

typedef uint32_t check_function(const uint8_t *, size_t, uint8_t *, size_t);
typedef uint32_t open_function(struct pomurica_session *);
typedef uint32_t feed_function(struct pomurica_session *, const uint8_t *, size_t);
typedef uint32_t close_function(struct pomurica_session *, uint8_t *, size_t);

/* The mutant: compiled from a changed copy under these names. */
step_function mutant_step;
batch_function mutant_batch;
check_function mutant_check;
count_function mutant_count;
lines_function mutant_count_lines;
open_function mutant_open;
feed_function mutant_feed;
close_function mutant_close;
record_function mutant_record;
read_function mutant_read_instruction;
write_function mutant_write_instruction;

enum {
    FOUND = 3,
    PATIENCE = 3, /* seconds, for what takes milliseconds */
    A_FEW_STEPS = 4096,
    A_FEW_LISTS = 64,
    A_FEW_TRACES = 64,
    A_FEW_SESSIONS = 64,
    A_FEW_RECORDINGS = 64,
    A_FEW_WORDS = 4096,
    MOST_STEPS = 65535,
    LONGEST = START_SIZE + MOST_STEPS * STEP_SIZE + END_SIZE,
    LONGEST_BUFFER = GUARD_SIZE + LONGEST + STEP_SIZE
};

static bool do_steps_differ(struct chance *chance, unsigned long steps)
{
    static struct question question;
    static struct call ours, theirs;

    for (unsigned long i = 0; i < steps; i++) {
        if (i % A_FEW_STEPS == 0)
            alarm(PATIENCE); /* the time before is forgotten */
        ask(chance, &question);
        call_step(second_step, &question, &ours);
        call_step(mutant_step, &question, &theirs);
        if (difference(&ours, &theirs) != NULL)
            return true;
    }
    return false;
}

static bool do_lists_differ(struct chance *chance, unsigned long lists)
{
    static struct list list;
    static struct batched ours, theirs;

    for (unsigned long i = 0; i < lists; i++) {
        if (i % A_FEW_LISTS == 0)
            alarm(PATIENCE);
        any_list(chance, &list);
        call_batch(second_batch, &list, &ours);
        call_batch(mutant_batch, &list, &theirs);
        if (batch_difference(&ours, &theirs) != NULL)
            return true;
    }
    return false;
}

/* The number, or none there is where a guard byte changed. */
static uint32_t call_check(check_function *check, const uint8_t *trace, size_t length, size_t report_len, struct lent *report)
{
    static const uint8_t OLD_REPORT[LENT_MOST] = { 1, 2, 3, 4, 5, 6, 7, 8, 9, 10, 11, 12 };
    const uint32_t number = check(trace, length, lend(report, OLD_REPORT, report_len, length % 16), report_len);

    return take_back(report) ? number : UINT32_MAX;
}

/* One trace and one size of the report. */
static bool do_checks_differ(const uint8_t *trace, size_t length, size_t report_len)
{
    const uint8_t *lent = lend_at_edge(trace, length);
    struct lent ours, theirs;
    const uint32_t number = call_check(second_check, lent, length, report_len, &ours);

    return call_check(mutant_check, lent, length, report_len, &theirs) != number ||
           memcmp(bytes_of(&ours), bytes_of(&theirs), report_len) != 0;
}

static bool do_traces_differ(struct chance *chance, unsigned long traces)
{
    static uint8_t trace[MADE_SIZE];
    struct expected expected;

    for (unsigned long i = 0; i < traces; i++) {
        const size_t length = make_either(chance, (enum damage)(i % DAMAGES), trace, &expected);

        if (i % A_FEW_TRACES == 0)
            alarm(PATIENCE);
        if (do_checks_differ(trace, length, REPORT_SIZE) || do_checks_differ(trace, length, i % (2 * REPORT_SIZE)))
            return true;
    }
    return false;
}

/* The longest trace, whole and one byte short. */
static bool does_longest_differ(struct chance *chance)
{
    const size_t longest = LONGEST;
    uint8_t *trace = malloc(longest);
    bool differ;

    if (trace == NULL) {
        perror("hunt");
        exit(2);
    }
    alarm(10 * PATIENCE);
    record_trace(chance, MOST_STEPS, trace);
    differ = do_checks_differ(trace, longest, REPORT_SIZE) || do_checks_differ(trace, longest - 1, REPORT_SIZE);
    free(trace);
    return differ;
}

/* One trace, counted onto such counts. */
static bool do_counts_differ(struct chance *chance, const uint8_t *trace, size_t length, const uint8_t *counts)
{
    const size_t counts_len = any_counts_size(chance);
    const uint8_t *lent = lend_at_edge(trace, length);
    struct counted ours, theirs;

    call_count(second_count, lent, length, counts, counts_len, &ours);
    call_count(mutant_count, lent, length, counts, counts_len, &theirs);
    return count_difference(&ours, &theirs) != NULL;
}

/* The lines of such counts, in every kind of room. */
static bool do_lines_differ(struct chance *chance, const uint8_t *counts)
{
    struct listed ours, theirs;
    size_t length = 0;

    for (uint32_t room = 0; room < ROOMS; room++) {
        const struct sizes sizes = any_sizes(chance, (enum room)room, length);

        call_lines(second_count_lines, counts, sizes, &ours);
        call_lines(mutant_count_lines, counts, sizes, &theirs);
        if (lines_difference(&ours, &theirs) != NULL)
            return true;
        if (room == ENOUGH)
            length = get_word(bytes_of(&ours.answer) + 4);
    }
    return false;
}

static bool does_counting_differ(struct chance *chance, unsigned long traces)
{
    static uint8_t trace[MADE_SIZE], counts[LENT_MOST];
    struct expected expected;

    for (unsigned long i = 0; i < traces; i++) {
        const size_t length = any_counted_trace(chance, trace, &expected);

        if (i % A_FEW_TRACES == 0)
            alarm(PATIENCE);
        any_counts(chance, counts);
        if (do_counts_differ(chance, trace, length, counts) || do_lines_differ(chance, counts))
            return true;
    }
    return false;
}

/* A session, with room on both sides of it that no call may touch. */
struct guarded {
    uint8_t before[GUARD_SIZE];
    struct pomurica_session session;
    uint8_t behind[GUARD_SIZE];
};

/* One session on both sides. */
struct both {
    struct guarded ours, theirs;
};

static bool are_sessions_same(const struct both *both)
{
    return memcmp(&both->ours, &both->theirs, sizeof both->ours) == 0;
}

/* Both sides have such a session, and zeros around it. */
static void begin_both(struct both *both, const struct pomurica_session *session)
{
    memset(both, 0, sizeof *both);
    both->ours.session = both->theirs.session = *session;
}

static bool do_openings_differ(struct both *both)
{
    return second_open(&both->ours.session) != mutant_open(&both->theirs.session) || !are_sessions_same(both);
}

/* No bytes are lent as no buffer. */
static bool do_feedings_differ(struct both *both, const uint8_t *bytes, size_t length)
{
    const uint8_t *run = length == 0 ? NULL : lend_at_edge(bytes, length);

    return second_feed(&both->ours.session, run, length) != mutant_feed(&both->theirs.session, run, length) ||
           !are_sessions_same(both);
}

/* A report that is now and then of another size. */
static bool do_closings_differ(struct chance *chance, struct both *both)
{
    const size_t report_len = one_in(chance, 8) ? any_below(chance, 2 * REPORT_SIZE) : REPORT_SIZE;
    uint8_t ours[2 * REPORT_SIZE], theirs[2 * REPORT_SIZE];

    any_bytes(chance, ours, sizeof ours);
    memcpy(theirs, ours, sizeof theirs);
    return second_close(&both->ours.session, ours, report_len) != mutant_close(&both->theirs.session, theirs, report_len) ||
           !are_sessions_same(both) || memcmp(ours, theirs, sizeof ours) != 0;
}

/* The trace from this byte on, in runs, with now and then a closing among them. */
static bool do_runs_differ(struct chance *chance, struct both *both, const uint8_t *trace, size_t at, size_t length)
{
    while (at < length) {
        const size_t cut = any_cut(chance, trace, at, length);

        if (do_feedings_differ(both, trace + at, cut - at))
            return true;
        if (one_in(chance, 64) && do_closings_differ(chance, both))
            return true;
        at = cut;
    }
    return false;
}

/* Closed, fed once more, and closed again. */
static bool do_ends_differ(struct chance *chance, struct both *both, const uint8_t *trace)
{
    return do_closings_differ(chance, both) || do_feedings_differ(both, trace, any_below(chance, 2)) ||
           do_closings_differ(chance, both);
}

static bool do_sessions_differ(struct chance *chance, unsigned long sessions)
{
    static uint8_t trace[MADE_SIZE];
    static struct both both;
    struct pomurica_session session;

    for (unsigned long i = 0; i < sessions; i++) {
        const size_t length = any_arriving(chance, (enum damage)(i % DAMAGES), trace);
        size_t at = any_session(chance, trace, length, &session);

        if (i % A_FEW_SESSIONS == 0)
            alarm(PATIENCE);
        spoil_session(chance, &session);
        begin_both(&both, &session);
        if (one_in(chance, 2)) {
            if (do_openings_differ(&both))
                return true;
            at = 0;
        }
        if (do_runs_differ(chance, &both, trace, at, length) || do_ends_differ(chance, &both, trace))
            return true;
    }
    return false;
}

/* The rooms for buffers of both sides. */
static struct recorded our_recorded, their_recorded;

static bool do_records_differ(const struct recording *asked)
{
    call_record(second_record, asked, &our_recorded);
    call_record(mutant_record, asked, &their_recorded);
    return record_difference(&our_recorded, &their_recorded) != NULL;
}

static bool do_recordings_differ(struct chance *chance, unsigned long recordings)
{
    static struct recording asked;

    for (unsigned long i = 0; i < recordings; i++) {
        if (i % A_FEW_RECORDINGS == 0)
            alarm(PATIENCE);
        any_recording(chance, &asked);
        if (do_records_differ(&asked))
            return true;
    }
    return false;
}

/* The most events, and one more, with room for them. */
static bool do_longest_records_differ(struct chance *chance)
{
    static struct recording asked;

    alarm(10 * PATIENCE);
    for (size_t count = MOST_STEPS; count <= MOST_STEPS + 1; count++) {
        any_long_recording(chance, count, GUARD_SIZE, &asked);
        if (do_records_differ(&asked))
            return true;
    }
    return false;
}

static bool do_words_differ(struct chance *chance)
{
    const uint32_t word = any_instruction_word(chance);
    const size_t parts_len = any_size(chance, PARTS_SIZE);
    struct encoded ours, theirs;

    call_read(second_read_instruction, word, parts_len, &ours);
    call_read(mutant_read_instruction, word, parts_len, &theirs);
    return encoding_difference(&ours, &theirs) != NULL;
}

static bool do_parts_differ(struct chance *chance)
{
    const struct parts parts = any_parts(chance);
    const size_t word_len = any_size(chance, WORD_SIZE);
    struct encoded ours, theirs;

    call_write(second_write_instruction, &parts, word_len, &ours);
    call_write(mutant_write_instruction, &parts, word_len, &theirs);
    return encoding_difference(&ours, &theirs) != NULL;
}

static bool do_instructions_differ(struct chance *chance, unsigned long instructions)
{
    for (unsigned long i = 0; i < instructions; i++) {
        if (i % A_FEW_WORDS == 0)
            alarm(PATIENCE);
        if (do_words_differ(chance) || do_parts_differ(chance))
            return true;
    }
    return false;
}

int main(int argc, char **argv)
{
    struct chance chance = { .seed = 0 };
    unsigned long steps, lists, traces, counted, sessions, recorded, instructions;

    if (argc != 9) {
        fprintf(stderr, "usage: hunt STEPS LISTS TRACES COUNTED SESSIONS RECORDED INSTRUCTIONS SEED\n");
        return 2;
    }
    steps = strtoul(argv[1], NULL, 10);
    lists = strtoul(argv[2], NULL, 10);
    traces = strtoul(argv[3], NULL, 10);
    counted = strtoul(argv[4], NULL, 10);
    sessions = strtoul(argv[5], NULL, 10);
    recorded = strtoul(argv[6], NULL, 10);
    instructions = strtoul(argv[7], NULL, 10);
    chance.seed = strtoull(argv[8], NULL, 10);
    open_edge(LONGEST);
    open_recorded(&our_recorded, LONGEST_BUFFER);
    open_recorded(&their_recorded, LONGEST_BUFFER);
    if (do_steps_differ(&chance, steps) || do_lists_differ(&chance, lists) || do_traces_differ(&chance, traces) ||
        does_counting_differ(&chance, counted) || do_sessions_differ(&chance, sessions) ||
        do_recordings_differ(&chance, recorded) || do_instructions_differ(&chance, instructions))
        return FOUND;
    if (recorded != 0 && do_longest_records_differ(&chance))
        return FOUND;
    return traces != 0 && does_longest_differ(&chance) ? FOUND : 0;
}
