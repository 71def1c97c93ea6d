/*
 * Recorded Steps to be counted: one call over the events of the trace that
 * check_loop prepares, from its start block.
 *
 *     record_loop count WHO FILE   records them once; WHO: nothing, ours, c, memcpy
 *     record_loop time WHO FILE    prints nanoseconds a Step
 */
#include "prepared.h"
#include "speed.h"

#include "../second/words.h"
#include "pomurica.h"

#include <stdio.h>
#include <string.h>

typedef uint32_t record_function(const uint8_t *, size_t, const struct pomurica_event *, size_t,
                                 uint8_t *, size_t, size_t);

static uint8_t trace[TRACE_SIZE], recorded[TRACE_SIZE];
static struct pomurica_event events[STEPS];
static record_function *record;

/* The program's own cost: a recorder that only returns. */
static uint32_t nothing(const uint8_t *block, size_t block_len, const struct pomurica_event *list, size_t list_len,
                        uint8_t *buffer, size_t buffer_len, size_t offset)
{
    (void)block, (void)block_len, (void)list, (void)list_len, (void)buffer, (void)buffer_len, (void)offset;
    return 0;
}

static record_function *record_of(const char *who)
{
    if (strcmp(who, "ours") == 0)
        return pomurica_record;
    if (strcmp(who, "memcpy") == 0)
        return fast_record_by_memcpy;
    return strcmp(who, "c") == 0 ? fast_record : nothing;
}

static void take_events(void)
{
    const uint8_t *step = trace + POMURICA_START_SIZE;

    for (size_t i = 0; i < STEPS; i++, step += POMURICA_STEP_SIZE) {
        events[i].code = get_word(step + STEP_CODE);
        events[i].a = get_word(step + STEP_A);
        events[i].b = get_word(step + STEP_B);
    }
}

static void prepare(void)
{
}

static void run(void)
{
    record(trace + START_BLOCK, BLOCK_SIZE, events, STEPS, recorded, sizeof recorded, 0);
}

/* Whether it is the trace that was recorded; whatever was, to find that takes as long. */
static bool is_the_trace(void)
{
    uint32_t differing = 0;

    for (size_t i = 0; i < sizeof trace; i++)
        differing |= (uint32_t)(trace[i] ^ recorded[i]);
    return differing == 0;
}

int main(int argc, char **argv)
{
    if (argc != 4) {
        fprintf(stderr, "usage: record_loop count WHO FILE | time WHO FILE\n");
        return 2;
    }
    if (!read_file(argv[3], trace, sizeof trace))
        return 2;
    take_events();
    record = record_of(argv[2]);
    if (strcmp(argv[1], "time") == 0)
        printf("%.1f\n", quickest(prepare, run));
    else
        run();
    return is_the_trace() == (record != nothing) ? 0 : 1;
}
