/*
 * host/arrival.c and host/done.c: traces of both layouts that arrive in pieces,
 * honest and damaged, in pieces of every size up to 210 and of chance.  However
 * they are cut, they come to the checker's report; a fault is known with the
 * byte of document 02, No. 6, and told once; and the done Steps are those that
 * the records of the whole trace show.
 */
#include "arrival.h"
#include "edge.h"
#include "group.h"
#include "pomurica.h"
#include "record.h"
#include "traces.h"

#include <string.h>

enum {
    EACH_CUT = 10,  /* traces of each kind of damage that come in pieces of every size */
    ANY_CUT = 1000, /* and in pieces of chance */
    LARGEST = 1000  /* piece of chance, where it is not a whole trace */
};

/* A trace to send, and what has to come of it. */
struct sent {
    const uint8_t *trace;
    size_t length;
    uint8_t report[POMURICA_REPORT_SIZE];
    uint32_t fault, taken, done;
};

/* The numbers in the records of the Steps that were found right. */
static uint32_t done_steps(const uint8_t *trace, uint32_t steps)
{
    uint32_t done = 0;

    for (uint32_t index = 0; index < steps; index++)
        done += pomurica_get_word(step_at(trace, index), POMURICA_STEP_NUMBER) == POMURICA_DONE;
    return done;
}

/* The bytes up to the one with which a fault is known; all, where none is. */
static uint32_t bytes_due(const uint8_t *trace, uint32_t fault, uint32_t place, size_t length)
{
    switch (fault) {
    case POMURICA_BAD_RECORD: return place + HEAD_SIZE;
    case POMURICA_BAD_COUNT: return place + (place == 0 ? start_size(is_old(trace)) : END_SIZE);
    case POMURICA_WRONG_STEP: return place + step_size(is_old(trace));
    case POMURICA_TRAILING: return place + 1;
    default: return (uint32_t)length;
    }
}

static struct sent due_of(const uint8_t *trace, size_t length)
{
    struct sent due = { .trace = trace, .length = length };
    const uint32_t number = pomurica_check(trace, length, due.report, sizeof due.report);

    due.fault = number == POMURICA_SHORT ? POMURICA_DONE : number;
    due.taken = bytes_due(trace, due.fault, pomurica_get_word(due.report, POMURICA_REPORT_PLACE), length);
    due.done = number == POMURICA_DONE ? done_steps(trace, pomurica_get_word(due.report, POMURICA_REPORT_STEPS)) : 0;
    return due;
}

static bool are_same(const struct arrival *one, const struct arrival *other)
{
    return memcmp(&one->session, &other->session, sizeof one->session) == 0 && one->fault == other->fault &&
           one->taken == other->taken && one->done.steps == other->done.steps;
}

/* The next piece, lent up to the edge; it tells a fault exactly if it has the byte with which that is known. */
static void send_piece(struct arrival *arrival, const struct sent *due, size_t from, size_t size)
{
    const bool has_fault = due->fault != POMURICA_DONE && from < due->taken && due->taken <= from + size;
    const struct arrival before = *arrival;
    const bool told = take_piece(arrival, lend_at_edge(due->trace + from, size), size);

    check(told == has_fault, "a piece of %u from byte %u: %s", (unsigned)size, (unsigned)from,
          told ? "told" : "not told");
    check(before.fault == POMURICA_DONE || are_same(&before, arrival), "a piece from byte %u behind a fault changes something",
          (unsigned)from);
}

static void check_end(struct arrival *arrival, const struct sent *due)
{
    uint8_t report[POMURICA_REPORT_SIZE];
    const uint32_t number = pomurica_close(&arrival->session, report, sizeof report);

    check(memcmp(report, due->report, sizeof report) == 0, "%u reported, %u due", (unsigned)number,
          (unsigned)pomurica_get_word(due->report, POMURICA_REPORT_NUMBER));
    check(arrival->fault == due->fault && arrival->taken == due->taken, "%u known after %u bytes, not %u after %u",
          (unsigned)arrival->fault, (unsigned)arrival->taken, (unsigned)due->fault, (unsigned)due->taken);
    check(number != POMURICA_DONE || arrival->done.steps == due->done, "%u Steps done, %u due",
          (unsigned)arrival->done.steps, (unsigned)due->done);
}

/* In pieces of one size. */
static void send_evenly(const struct sent *due, size_t size)
{
    struct arrival arrival;

    begin_arrival(&arrival);
    for (size_t from = 0; from < due->length; from += size)
        send_piece(&arrival, due, from, size < due->length - from ? size : due->length - from);
    check_end(&arrival, due);
}

/* In pieces of any size, some of them empty, and some all that is left. */
static void send_anyhow(struct chance *chance, const struct sent *due)
{
    struct arrival arrival;
    size_t from = 0;

    begin_arrival(&arrival);
    while (from < due->length) {
        const size_t left = due->length - from, any = any_below(chance, one_in(chance, 2) ? 5 : LARGEST);
        const size_t size = one_in(chance, 20) || any > left ? left : any;

        send_piece(&arrival, due, from, size);
        from += size;
    }
    check_end(&arrival, due);
}

static void arrive(struct chance *chance, enum damage damage)
{
    static uint8_t trace[MADE_SIZE];
    struct expected expected;

    for (int i = 0; i < EACH_CUT + ANY_CUT; i++) {
        const size_t length = make_either(chance, damage, trace, &expected);
        const struct sent due = due_of(trace, length);

        send_anyhow(chance, &due);
        for (size_t size = 1; i < EACH_CUT && size <= LONGEST_TRIED; size++)
            send_evenly(&due, size);
    }
}

/* A trace that is there whole: as many as its first Steps show, with no byte behind them looked at. */
static void count_whole(struct chance *chance)
{
    static uint8_t trace[MADE_SIZE];

    for (uint32_t steps = 0; steps <= MADE_STEPS; steps++) {
        record_trace(chance, MADE_STEPS, trace);
        check(count_done(lend_at_edge(trace, step_place(trace, steps)), steps) == done_steps(trace, steps), "%u Steps",
              (unsigned)steps);
    }
    check(count_done(NULL, 0) == 0, "no trace at all");
}

/* Each byte of an answer number makes it one that is not DONE, wherever the trace is cut. */
static void count_each_byte(uint32_t head)
{
    enum { STEPS = 3, MOST_LENGTH = START_SIZE + STEPS * STEP_SIZE + END_SIZE };
    const bool old = head == POMURICA_OLD_START_HEAD;
    const uint32_t length = record_place(old, STEPS + 1) + END_SIZE;

    for (uint32_t place = start_size(old); place < length; place++)
        for (size_t cut = place - 1; cut <= place + 1; cut++) {
            uint8_t trace[MOST_LENGTH] = { 0 };
            struct done done;

            pomurica_put_word(trace, POMURICA_RECORD_HEAD, head);
            trace[place] = 0x80;
            begin_done(&done);
            count_done_in(&done, trace, cut);
            count_done_in(&done, trace + cut, length - cut);
            check(done.steps == done_steps(trace, STEPS), "byte %u: %u Steps done", (unsigned)place, (unsigned)done.steps);
        }
}

int main(void)
{
    struct chance chance = { .seed = 6 };

    open_edge(MADE_SIZE);
    for (int damage = HONEST; damage < DAMAGES; damage++) {
        group(DAMAGE_NAMES[damage]);
        arrive(&chance, (enum damage)damage);
    }
    group("the done Steps of a trace that is there whole");
    count_whole(&chance);
    chance.old = true;
    count_whole(&chance);
    group("each byte of each Step, and a cut beside it");
    count_each_byte(POMURICA_START_HEAD);
    count_each_byte(POMURICA_OLD_START_HEAD);
    return summary();
}
