/*
 * The recorder behind the header against another, on recordings of chance:
 * number, every byte of the buffer, guard bytes, block and events that stay.
 * Where it is done, what is written is also the trace that single steps give,
 * and the checker accepts it; where it is refused, no byte has changed.
 *
 *     compare_record [THOUSANDS SEED]
 *
 * The other recorder is the second implementation's, and the single step the
 * header's, unless OTHER_RECORD and SINGLE_STEP say otherwise.  Prints how often
 * each thing was met and fails where one was met too seldom.
 */
#include "any_recording.h"
#include "events.h"
#include "group.h"
#include "numbers.h"
#include "signals.h"

#include <inttypes.h>
#include <stdio.h>
#include <stdlib.h>
#include <string.h>

#ifndef OTHER_RECORD
#define OTHER_RECORD second_record
#endif
#ifndef SINGLE_STEP
#define SINGLE_STEP pomurica_step
#endif

record_function OTHER_RECORD;
step_function SINGLE_STEP;

/* Unless the arguments say otherwise. */
#define THOUSANDS 10
#define SEED 1

/* How often each thing is met in a thousand recordings, at least. */
#define SELDOM 1

enum {
    LONG_OFFSET = 100,
    LONGEST_BUFFER = LONG_OFFSET + POMURICA_LONGEST_TRACE + POMURICA_STEP_SIZE
};

/* What a recording is counted as. */
enum kind {
    OF_NONE, OF_ONE, OF_TWO, OF_FEW, OF_MANY, REFUSED_BETWEEN, NOT_GOOD,
    ALL_OF_BUFFER, FROM_0, IN_THE_MIDDLE, LAST_FIT,
    ONE_BYTE_SHORT, NO_BUFFER, AT_THE_END, ONE_PAST, PAST, WRAPPED, HALF_FITS, MOST_EVENTS,
    ONE_TOO_MANY, MANY_TOO_MANY,
    SHORT_BLOCK, LONG_BLOCK, BLOCK_AND_COUNT, BLOCK_AND_ROOM,
    KINDS
};
static const char *const KIND_NAMES[KINDS] = {
    [OF_NONE] = "no event", [OF_ONE] = "one event", [OF_TWO] = "two events", [OF_FEW] = "3 to 40 events",
    [OF_MANY] = "1,000 events",
    [REFUSED_BETWEEN] = "refused between done ones", [NOT_GOOD] = "the block is not good",
    [ALL_OF_BUFFER] = "the buffer is the trace", [FROM_0] = "offset 0, bytes behind",
    [IN_THE_MIDDLE] = "bytes before and behind", [LAST_FIT] = "the last offset that fits",
    [ONE_BYTE_SHORT] = "NO_ROOM: by one byte", [NO_BUFFER] = "NO_ROOM: a buffer of no bytes",
    [AT_THE_END] = "NO_ROOM: at the buffer's end", [ONE_PAST] = "NO_ROOM: one past its end",
    [PAST] = "NO_ROOM: past its end",
    [WRAPPED] = "NO_ROOM: offset and trace wrap", [HALF_FITS] = "NO_ROOM: the lower half fits",
    [MOST_EVENTS] = "NO_ROOM: 65,535 events",
    [ONE_TOO_MANY] = "BAD_COUNT: 65,536 events", [MANY_TOO_MANY] = "BAD_COUNT: more",
    [SHORT_BLOCK] = "BAD_SIZE: block too short", [LONG_BLOCK] = "BAD_SIZE: block too long",
    [BLOCK_AND_COUNT] = "BAD_SIZE: and too many events", [BLOCK_AND_ROOM] = "BAD_SIZE: and no room",
};

enum {
    NUMBERS = POMURICA_NO_ROOM + 1,
    CODES = POMURICA_EVENT_RETURN + 1 /* 0 is for any that is unknown */
};

/*
 * How often each kind and number of a recording was met; and of its Steps, by number, by code, refused and done, and by
 * the end of a check that is of a virtual interrupt.
 */
static struct {
    unsigned long kind[KINDS], number[NUMBERS], answer[STEP_NUMBERS], step[CODES][2], signal[SIGNALS];
} met;

/* ----------------------------------------------------------- What is due */

/* The bytes that lie behind the offset, none where it is past the end. */
static size_t bytes_behind(const struct recording *asked)
{
    return asked->offset > asked->buffer_len ? 0 : asked->buffer_len - asked->offset;
}

static bool has_room(const struct recording *asked)
{
    return bytes_behind(asked) >= POMURICA_TRACE_SIZE(asked->events_len);
}

/* By the lengths and the offset alone. */
static uint32_t number_due(const struct recording *asked)
{
    if (asked->block_len != POMURICA_BLOCK_SIZE)
        return POMURICA_BAD_SIZE;
    if (asked->events_len > POMURICA_MOST_STEPS)
        return POMURICA_BAD_COUNT;
    return has_room(asked) ? POMURICA_DONE : POMURICA_NO_ROOM;
}

static const uint8_t *step_at(const struct recording *asked, const struct recorded *recorded, size_t i)
{
    return recorded->buffer + asked->offset + POMURICA_START_SIZE + i * POMURICA_STEP_SIZE;
}

/* ----------------------------------------------------------- What is met */

static enum kind length_of(const struct recording *asked)
{
    if (asked->events_len > SHORT_LIST)
        return OF_MANY;
    return asked->events_len > 2 ? OF_FEW : OF_NONE + (enum kind)asked->events_len;
}

static enum kind place_of(const struct recording *asked)
{
    const bool to_the_end = bytes_behind(asked) == POMURICA_TRACE_SIZE(asked->events_len);

    if (asked->offset == 0)
        return to_the_end ? ALL_OF_BUFFER : FROM_0;
    return to_the_end ? LAST_FIT : IN_THE_MIDDLE;
}

/* The Steps by code and number; a done one, a refused one and again a done one in this order are counted as well. */
static void meet_steps(const struct recording *asked, const struct recorded *recorded)
{
    int met_so_far = 0;

    for (size_t i = 0; i < asked->events_len; i++) {
        const uint8_t *const step = step_at(asked, recorded, i);
        const uint32_t number = pomurica_get_word(step, POMURICA_STEP_NUMBER);
        const uint32_t code = asked->events[i].code;
        const bool done = number == POMURICA_DONE;

        met.answer[number]++;
        met.step[code < CODES ? code : 0][done]++;
        met.signal[signal_of(code, asked->events[i].a, number, pomurica_get_word(step, POMURICA_STEP_VALUE))]++;
        met_so_far += met_so_far < 3 && done == (met_so_far != 1);
    }
    met.kind[REFUSED_BETWEEN] += met_so_far == 3;
}

/* A block that is not good answers the first event so; a note or a return may have such an answer too. */
static bool is_not_good(const struct recording *asked, const struct recorded *recorded)
{
    const uint32_t first =
        asked->events_len == 0 ? POMURICA_DONE : pomurica_get_word(step_at(asked, recorded, 0), POMURICA_STEP_NUMBER);

    if (first != POMURICA_BAD_MODE && first != POMURICA_BAD_STATE)
        return false;
    return asked->events[0].code != POMURICA_EVENT_NOTE && asked->events[0].code != POMURICA_EVENT_RETURN;
}

static void meet_done(const struct recording *asked, const struct recorded *recorded)
{
    met.kind[length_of(asked)]++;
    met.kind[place_of(asked)]++;
    met.kind[NOT_GOOD] += is_not_good(asked, recorded);
    meet_steps(asked, recorded);
}

static void meet_no_room(const struct recording *asked)
{
    const size_t size = POMURICA_TRACE_SIZE(asked->events_len), sum = asked->offset + size;
    const uint32_t half = (uint32_t)asked->offset;

    met.kind[ONE_BYTE_SHORT] += bytes_behind(asked) == size - 1;
    met.kind[NO_BUFFER] += asked->buffer_len == 0;
    met.kind[AT_THE_END] += asked->offset == asked->buffer_len;
    met.kind[ONE_PAST] += asked->offset == asked->buffer_len + 1;
    met.kind[PAST] += asked->offset > asked->buffer_len + 1 && asked->offset <= UINT32_MAX;
    met.kind[WRAPPED] += sum < asked->offset && sum <= asked->buffer_len;
    met.kind[HALF_FITS] += asked->offset > UINT32_MAX && half + size <= asked->buffer_len;
    met.kind[MOST_EVENTS] += asked->events_len == POMURICA_MOST_STEPS;
}

static void meet_bad_count(const struct recording *asked)
{
    met.kind[asked->events_len == POMURICA_MOST_STEPS + 1 ? ONE_TOO_MANY : MANY_TOO_MANY]++;
}

static void meet_bad_size(const struct recording *asked)
{
    met.kind[asked->block_len < POMURICA_BLOCK_SIZE ? SHORT_BLOCK : LONG_BLOCK]++;
    met.kind[BLOCK_AND_COUNT] += asked->events_len > POMURICA_MOST_STEPS;
    met.kind[BLOCK_AND_ROOM] += asked->events_len <= POMURICA_MOST_STEPS && !has_room(asked);
}

static void meet(const struct recording *asked, const struct recorded *recorded)
{
    met.number[recorded->number]++;
    switch (recorded->number) {
    case POMURICA_DONE: meet_done(asked, recorded); break;
    case POMURICA_BAD_SIZE: meet_bad_size(asked); break;
    case POMURICA_BAD_COUNT: meet_bad_count(asked); break;
    default: meet_no_room(asked); break;
    }
}

/* --------------------------------------------------------- One recording */

static struct recorded ours, theirs;

/* Whether both record alike; ours is then what the one behind the header did. */
static bool agree(const struct recording *asked)
{
    const char *what;

    call_record(pomurica_record, asked, &ours);
    call_record(OTHER_RECORD, asked, &theirs);
    what = record_difference(&ours, &theirs);
    return check(what == NULL, "%s; number %" PRIu32 ", the other %" PRIu32, what, ours.number, theirs.number);
}

/* Every byte of the buffer: the trace of single steps, and around it what was there. */
static bool is_as_single_steps(const struct recording *asked)
{
    static uint8_t due[LONGEST_BUFFER];

    put_old_bytes(due, asked->buffer_len);
    write_trace(SINGLE_STEP, asked, due + asked->offset);
    return check(memcmp(ours.buffer, due, asked->buffer_len) == 0, "the buffer is not that of single steps");
}

static bool is_accepted(const struct recording *asked)
{
    const size_t size = POMURICA_TRACE_SIZE(asked->events_len);
    uint8_t report[POMURICA_REPORT_SIZE];
    const uint32_t number = pomurica_check(ours.buffer + asked->offset, size, report, sizeof report);

    return check(number == POMURICA_DONE && pomurica_get_word(report, POMURICA_REPORT_PLACE) == size &&
                     pomurica_get_word(report, POMURICA_REPORT_STEPS) == asked->events_len,
                 "the checker gives %" PRIu32, number);
}

static bool compare_recording(const struct recording *asked)
{
    const uint32_t due = number_due(asked);

    if (!agree(asked) || !check(ours.number == due, "number %" PRIu32 ", not %" PRIu32, ours.number, due))
        return false;
    if (due != POMURICA_DONE)
        return check(is_nothing_written(&ours), "%s, and a byte changed", pomurica_number_name(due));
    return is_as_single_steps(asked) && is_accepted(asked);
}

/* ------------------------------------------------------------------- All */

static void tell(const struct recording *asked)
{
    printf("        block of %zu bytes, %zu events, buffer of %zu bytes, offset %zu", asked->block_len,
           asked->events_len, asked->buffer_len, asked->offset);
}

static void compare_random(struct chance *chance, unsigned long count)
{
    static struct recording asked;

    for (unsigned long i = 0; i < count; i++) {
        const uint64_t seed = chance->seed;

        any_recording(chance, &asked);
        if (compare_recording(&asked)) {
            meet(&asked, &ours);
        } else if (is_telling()) {
            tell(&asked);
            printf(", made from seed %" PRIu64 "\n", seed);
        }
    }
}

static void compare_long(const struct recording *asked)
{
    if (!compare_recording(asked) && is_telling()) {
        tell(asked);
        printf("\n");
    }
}

/* The longest trace, where it fits and by one byte does not; and one event more, with the room for it. */
static void compare_longest(struct chance *chance)
{
    static struct recording asked;

    any_long_recording(chance, POMURICA_MOST_STEPS, 0, &asked);
    compare_long(&asked);
    asked.buffer_len--;
    compare_long(&asked);
    any_long_recording(chance, POMURICA_MOST_STEPS, LONG_OFFSET, &asked);
    compare_long(&asked);
    asked.offset++;
    compare_long(&asked);
    any_long_recording(chance, POMURICA_MOST_STEPS + 1, LONG_OFFSET, &asked);
    compare_long(&asked);
}

static void show(const char *name, unsigned long times, unsigned long seldom)
{
    printf("  %-32s %9lu\n", name, times);
    check(times >= seldom, "%s: met %lu times, fewer than %lu", name, times, seldom);
}

/* Each code, done and refused; one that is unknown is only refused. */
static void show_codes(unsigned long seldom)
{
    char name[32];

    for (uint32_t code = 0; code < CODES; code++)
        for (uint32_t done = 0; done <= 1; done++) {
            snprintf(name, sizeof name, "a Step of code %" PRIu32 ", %s", code, done ? "done" : "refused");
            if (code != 0 || !done)
                show(name, met.step[code][done], seldom);
        }
    check(met.step[0][1] == 0, "an unknown code was done");
}

static void show_met(unsigned long thousands)
{
    static const uint32_t OF_RECORDING[] = { POMURICA_DONE, POMURICA_BAD_SIZE, POMURICA_BAD_COUNT, POMURICA_NO_ROOM };
    const unsigned long seldom = SELDOM * thousands;
    char name[32];

    for (size_t i = 0; i < sizeof OF_RECORDING / sizeof OF_RECORDING[0]; i++)
        show(pomurica_number_name(OF_RECORDING[i]), met.number[OF_RECORDING[i]], seldom);
    for (uint32_t kind = 0; kind < KINDS; kind++)
        show(KIND_NAMES[kind], met.kind[kind], seldom);
    for (uint32_t number = 0; number < STEP_NUMBERS; number++) {
        snprintf(name, sizeof name, "a Step with %s", pomurica_number_name(number));
        if (is_of_step(number) && number != POMURICA_BAD_SIZE)
            show(name, met.answer[number], seldom);
        else
            check(met.answer[number] == 0, "%s", name);
    }
    show_codes(seldom);
    show_signals(met.signal, seldom);
}

int main(int argc, char **argv)
{
    const unsigned long thousands = argc > 1 ? strtoul(argv[1], NULL, 10) : THOUSANDS;
    struct chance chance = { .seed = argc > 2 ? strtoull(argv[2], NULL, 10) : SEED };

    open_events(EVENTS_MOST);
    open_recorded(&ours, LONGEST_BUFFER);
    open_recorded(&theirs, LONGEST_BUFFER);
    printf("%lu thousand recordings, seed %" PRIu64 "\n", thousands, chance.seed);
    group("recordings of chance, side by side, by single steps, and checked");
    compare_random(&chance, thousands * 1000);
    group("every kind of recording met often enough");
    show_met(thousands);
    group("the longest trace, and one event more, side by side");
    compare_longest(&chance);
    return summary();
}
