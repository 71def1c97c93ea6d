/* The traces in files: see judge.h. */
#include "judge.h"

#include "arrival.h"
#include "complain.h"
#include "done.h"
#include "input.h"
#include "name.h"
#include "output.h"
#include "page.h"
#include "phrases.h"
#include "pomurica.h"
#include "progress.h"
#include "tell.h"
#include "totals.h"

#include <inttypes.h>
#include <stdio.h>
#include <stdlib.h>
#include <string.h>

/*
 * The most that is read of a file whose trace has to be there whole.  A trace
 * has at most 65,535 Steps, so its End lies within the first 13,369,336 bytes
 * and no record that the checker judges reaches further.  One byte more shows
 * that something follows the End; what it is, and what comes behind it, changes
 * neither number nor place nor Steps.
 */
#define MOST_READ ((size_t)POMURICA_LONGEST_TRACE + 1)

/* Room for a piece of a trace that is judged as it arrives. */
#define PIECE ((size_t)64 * 1024)

/* A run over the files. */
struct run {
    const struct wish *wish;
    struct progress progress;
    uint8_t *bytes; /* of the file at hand, or a piece of it */
    size_t room;    /* so many have room */
    uint8_t counts[POMURICA_COUNTS_SIZE];
};

static enum status worse(enum status one, enum status other)
{
    return one > other ? one : other;
}

/* Prints the verdict on a file, as one whole line; report has it in its first three words. */
static void print_verdict(FILE *out, const char *name, const uint8_t *report, uint32_t done)
{
    put_name(out, name);
    fputs(": ", out);
    tell_verdict(out, report, done);
    fputc('\n', out);
}

static enum status status_of(uint32_t number)
{
    return number == POMURICA_DONE ? ALL_ACCEPTED : ANY_REFUSED;
}

/* Tells a fault when it is known, while the trace still arrives. */
static void tell_known(struct run *run, const char *name, const struct arrival *arrival)
{
    hide_progress(&run->progress);
    put_name(stdout, name);
    printf(": %" PRIu32 " %s known after %" PRIu32 " bytes\n", arrival->fault, pomurica_number_name(arrival->fault),
           arrival->taken);
    send_output();
}

/* Takes a file to its end, also behind a fault: whoever sends the trace is not cut off. */
static int take_file(struct run *run, const char *name, struct arrival *arrival)
{
    const bool follows = run->wish->follow && !run->wish->quiet;
    struct input input;
    size_t length;
    int reason = open_input(&input, name);

    if (reason != 0)
        return reason;
    while ((reason = read_piece(&input, run->bytes, run->room, &length)) == 0 && length > 0)
        if (take_piece(arrival, run->bytes, length) && follows)
            tell_known(run, name, arrival);
    close_input(&input);
    return reason;
}

static enum status tell_unread(struct run *run, const char *name, int reason)
{
    hide_progress(&run->progress);
    send_output(); /* so that it stands behind the files before, where both go to one place */
    complain(name, "%s", strerror(reason));
    return TROUBLE;
}

/* A trace of any length, as it arrives. */
static enum status judge_arriving(struct run *run, const char *name)
{
    uint8_t report[POMURICA_REPORT_SIZE];
    struct arrival arrival;
    uint32_t number;
    int reason;

    begin_arrival(&arrival);
    reason = take_file(run, name, &arrival);
    if (reason != 0)
        return tell_unread(run, name, reason);
    number = pomurica_close(&arrival.session, report, sizeof report);
    if (!run->wish->quiet) {
        hide_progress(&run->progress);
        print_verdict(stdout, name, report, arrival.done.steps);
        hold_output();
    }
    return status_of(number);
}

/* Prints what is asked for of a file that was read. */
static void print_file(const char *name, const uint8_t *bytes, size_t length, const struct wish *wish,
                       const uint8_t *explanation)
{
    const uint32_t steps = pomurica_get_word(explanation, POMURICA_EXPLANATION_STEPS);

    if (wish->html)
        write_page(stdout, name, bytes, length, explanation);
    else
        print_verdict(stdout, name, explanation, count_done(bytes, steps));
    if (wish->trace)
        tell_steps(stdout, bytes, explanation);
    if (wish->explain)
        tell_explanation(stdout, bytes, length, explanation);
    send_output();
}

/* A trace that is there whole, for those who look into it. */
static enum status judge_trace(struct run *run, const char *name, size_t length)
{
    uint8_t explanation[POMURICA_EXPLANATION_SIZE];
    const uint32_t number = pomurica_explain(run->bytes, length, explanation, sizeof explanation);

    if (!run->wish->quiet) {
        hide_progress(&run->progress);
        print_file(name, run->bytes, length, run->wish, explanation);
    }
    return status_of(number);
}

/* Tells on standard error that a trace adds nothing to the counts, and why; standard output has the counts alone. */
static void tell_uncounted(const char *name, const uint8_t *trace, size_t length, uint32_t number)
{
    uint8_t report[POMURICA_REPORT_SIZE];

    if (number == POMURICA_FULL) {
        put_name(stderr, name);
        fprintf(stderr, ": refused %d %s: a count would pass 4294967295, so nothing of this trace is counted\n",
                POMURICA_FULL, pomurica_number_name(POMURICA_FULL));
        return;
    }
    pomurica_check(trace, length, report, sizeof report);
    print_verdict(stderr, name, report, 0); /* refused: how many Steps were done is not told */
}

static enum status count_trace(struct run *run, const char *name, size_t length)
{
    const uint32_t number = pomurica_count(run->bytes, length, run->counts, sizeof run->counts);

    if (number == POMURICA_DONE)
        return ALL_ACCEPTED;
    hide_progress(&run->progress);
    tell_uncounted(name, run->bytes, length, number);
    return ANY_REFUSED;
}

/* Whether a trace has to be there whole: to look into it, and to count it, which is done only if it is accepted. */
static bool wants_whole(const struct wish *wish)
{
    return wish->explain || wish->trace || wish->html || wish->count;
}

static enum status judge_file(struct run *run, const char *name)
{
    size_t length = 0;
    int reason;

    if (!wants_whole(run->wish))
        return judge_arriving(run, name);
    reason = read_file(name, run->bytes, run->room, &length);
    if (reason != 0)
        return tell_unread(run, name, reason);
    return run->wish->count ? count_trace(run, name, length) : judge_trace(run, name, length);
}

static enum status judge_each(struct run *run)
{
    enum status status = ALL_ACCEPTED;

    for (size_t i = 0; i < run->wish->file_count; i++) {
        status = worse(status, judge_file(run, run->wish->files[i]));
        show_progress(&run->progress, i + 1);
    }
    hide_progress(&run->progress);
    send_output();
    return status;
}

/*
 * Prints the counts, and then writes the totals, if there are any.  In this
 * order, so that counts which nobody got are not in the totals.
 */
static enum status put_counts(const struct run *run, const struct totals *totals)
{
    uint8_t lines[POMURICA_LINES_SIZE], answer[POMURICA_ANSWER_SIZE];
    size_t length;

    pomurica_count_lines(run->counts, sizeof run->counts, lines, sizeof lines, answer, sizeof answer);
    length = pomurica_get_word(answer, POMURICA_ANSWER_VALUE);
    if (!run->wish->quiet) {
        fwrite(lines, 1, length, stdout);
        send_output();
    }
    return totals == NULL || write_totals(totals, lines, length) ? ALL_ACCEPTED : TROUBLE;
}

/* The totals stay locked from their reading to their writing: whoever waits for them finds what this run adds. */
static enum status count_each(struct run *run)
{
    const char *const name = run->wish->totals;
    struct totals totals;
    enum status status;

    if (name != NULL && !open_totals(&totals, name, run->counts))
        return TROUBLE;
    status = judge_each(run);
    status = worse(status, put_counts(run, name != NULL ? &totals : NULL));
    if (name != NULL)
        close_totals(&totals);
    return status;
}

enum status judge_files(const struct wish *wish)
{
    const size_t room = wants_whole(wish) ? MOST_READ : PIECE;
    struct run run = { .wish = wish, .bytes = malloc(room), .room = room };
    enum status status;

    if (run.bytes == NULL) {
        fprintf(stderr, "console: no memory for %zu bytes\n", room);
        return TROUBLE;
    }
    begin_progress(&run.progress, wish->file_count);
    status = wish->count ? count_each(&run) : judge_each(&run);
    free(run.bytes);
    return status;
}
