/*
 * Events to be counted, many in one call and one by one from C: those of the
 * trace that check_loop prepares, on from its start block.
 *
 *     batch_loop WHO FILE
 *
 * WHO: `batch` does them by pomurica_batch, `steps` by pomurica_step;
 * `no-batch` and `no-steps` are the same loops over functions that only return.
 */
#include "prepared.h"

#include "../second/words.h"
#include "pomurica.h"

#include <stdio.h>
#include <string.h>

/* Events of a call. */
#define BATCH 1000

typedef uint32_t batch_function(const struct pomurica_event *, size_t, struct pomurica_answer *, size_t, uint8_t *, size_t);
typedef uint32_t step_function(uint8_t *, size_t, uint32_t, uint32_t, uint32_t, uint8_t *, size_t);

static uint8_t trace[TRACE_SIZE], block[BLOCK_SIZE];
static struct pomurica_event events[STEPS];
static struct pomurica_answer answers[STEPS];
static batch_function *batch;
static step_function *step;

/* The loops' own cost. */
static uint32_t no_batch(const struct pomurica_event *list, size_t list_len, struct pomurica_answer *answered,
                         size_t answered_len, uint8_t *bytes, size_t bytes_len)
{
    (void)list, (void)list_len, (void)answered, (void)answered_len, (void)bytes, (void)bytes_len;
    return 0;
}

static uint32_t no_step(uint8_t *bytes, size_t bytes_len, uint32_t code, uint32_t a, uint32_t b,
                        uint8_t *answer, size_t answer_len)
{
    (void)bytes, (void)bytes_len, (void)code, (void)a, (void)b, (void)answer, (void)answer_len;
    return 0;
}

static const uint8_t *step_at(size_t i)
{
    return trace + POMURICA_START_SIZE + i * POMURICA_STEP_SIZE;
}

static void take_events(void)
{
    memcpy(block, trace + START_BLOCK, BLOCK_SIZE);
    for (size_t i = 0; i < STEPS; i++) {
        events[i].code = get_word(step_at(i) + STEP_CODE);
        events[i].a = get_word(step_at(i) + STEP_A);
        events[i].b = get_word(step_at(i) + STEP_B);
    }
}

static void run_batches(void)
{
    for (size_t i = 0; i < STEPS; i += BATCH)
        batch(events + i, BATCH, answers + i, BATCH, block, BLOCK_SIZE);
}

/* An answer's bytes are those of its struct: the counted processor's words are little-endian. */
static void run_steps(void)
{
    for (size_t i = 0; i < STEPS; i++)
        step(block, BLOCK_SIZE, events[i].code, events[i].a, events[i].b, (uint8_t *)&answers[i], ANSWER_SIZE);
}

/* Whether answers and block are those of the trace; of whatever they are, it takes as long. */
static bool is_as_recorded(void)
{
    uint32_t differing = 0;

    for (size_t i = 0; i < STEPS; i++) {
        differing |= answers[i].number ^ get_word(step_at(i) + STEP_ANSWER);
        differing |= answers[i].value ^ get_word(step_at(i) + STEP_VALUE);
    }
    for (size_t i = 0; i < BLOCK_SIZE; i++)
        differing |= (uint32_t)(block[i] ^ step_at(STEPS - 1)[STEP_BLOCK + i]);
    return differing == 0;
}

/* Runs the loop that is named; false for a name that is none. */
static bool run(const char *who)
{
    const bool does_nothing = strncmp(who, "no-", strlen("no-")) == 0;

    batch = does_nothing ? no_batch : pomurica_batch;
    step = does_nothing ? no_step : pomurica_step;
    who += does_nothing ? strlen("no-") : 0;
    if (strcmp(who, "batch") == 0)
        run_batches();
    else if (strcmp(who, "steps") == 0)
        run_steps();
    else
        return false;
    return is_as_recorded() != does_nothing;
}

int main(int argc, char **argv)
{
    if (argc != 3) {
        fprintf(stderr, "usage: batch_loop WHO FILE\n");
        return 2;
    }
    if (!read_file(argv[2], trace, sizeof trace))
        return 2;
    take_events();
    return run(argv[1]) ? 0 : 1;
}
