/*
 * Steps to be counted: one call after another over prepared blocks and events.
 *
 *     step_loop prepare CODE FILE   of one event code, or of all thirteen in turn (0)
 *     step_loop count WHO FILE      runs them once; WHO: nothing, ours, c
 *     step_loop time WHO FILE       prints nanoseconds a step
 */
#include "enabled.h"
#include "prepared.h"
#include "speed.h"

#include "../second/words.h"
#include "pomurica.h"

#include <stdio.h>
#include <stdlib.h>
#include <string.h>

typedef uint32_t step_function(uint8_t *, size_t, uint32_t, uint32_t, uint32_t, uint8_t *, size_t);

static struct step_case prepared[STEPS], cases[STEPS];
static step_function *step;

/* The loop's own cost: a step that only returns. */
static uint32_t nothing(uint8_t *block, size_t block_len, uint32_t code, uint32_t a, uint32_t b,
                        uint8_t *answer, size_t answer_len)
{
    (void)block, (void)block_len, (void)code, (void)a, (void)b, (void)answer, (void)answer_len;
    return 0;
}

static step_function *step_of(const char *who)
{
    if (strcmp(who, "ours") == 0)
        return pomurica_step;
    return strcmp(who, "c") == 0 ? fast_step : nothing;
}

/* A good block and an event of the code that ends as wanted. */
static void prepare_case(struct chance *chance, uint32_t code, struct step_case *made)
{
    const bool wanted = wants_done(chance);
    uint8_t after[BLOCK_SIZE], answer[ANSWER_SIZE];

    do {
        good_block(chance, made->block);
        if (wanted)
            enable_calls(made->block);
        choose_event(chance, code, wanted, made);
    } while (is_done(false, made, after, answer) != wanted);
}

static void prepare(uint32_t code)
{
    struct chance chance = { .seed = 1 };

    for (uint32_t i = 0; i < STEPS; i++)
        prepare_case(&chance, code != 0 ? code : 1 + i % (CODES - 1), &prepared[i]);
}

/* A done step changes its block. */
static void take_fresh(void)
{
    memcpy(cases, prepared, sizeof cases);
}

static void run(void)
{
    uint8_t answer[ANSWER_SIZE];

    for (size_t i = 0; i < STEPS; i++)
        step(cases[i].block, BLOCK_SIZE, cases[i].event.code, cases[i].event.a, cases[i].event.b,
             answer, ANSWER_SIZE);
}

int main(int argc, char **argv)
{
    if (argc != 4) {
        fprintf(stderr, "usage: step_loop prepare CODE FILE | count WHO FILE | time WHO FILE\n");
        return 2;
    }
    if (strcmp(argv[1], "prepare") == 0) {
        prepare((uint32_t)strtoul(argv[2], NULL, 10));
        return write_file(argv[3], prepared, sizeof prepared) ? 0 : 2;
    }
    if (!read_file(argv[3], prepared, sizeof prepared))
        return 2;
    step = step_of(argv[2]);
    if (strcmp(argv[1], "time") == 0) {
        printf("%.1f\n", quickest(take_fresh, run));
    } else {
        take_fresh();
        run();
    }
    return 0;
}
