#define _POSIX_C_SOURCE 200809L

#include "prepared.h"

#include "../second/records.h"
#include "../second/words.h"

#include <stdio.h>
#include <string.h>
#include <time.h>

#define RUNS 200

bool wants_done(struct chance *chance)
{
    return !one_in(chance, 10);
}

/* On a good block these are refused for an operand alone. */
static bool is_always_here(uint32_t code)
{
    return code == CODE_UNDEFINED || code == CODE_SVC || code == CODE_INTERRUPT_CHECK;
}

void choose_event(struct chance *chance, uint32_t code, bool wanted, struct step_case *step)
{
    step->event = event_of(chance, code, step->block);
    if (!wanted && is_always_here(code))
        step->event.b = 1;
}

bool is_done(bool old, const struct step_case *step, uint8_t *after, uint8_t *answer)
{
    memcpy(after, step->block, BLOCK_SIZE);
    return second_step_in(old ? OLD_LAYOUT : NEW_LAYOUT, after, step->event.code, step->event.a, step->event.b,
                          answer) == DONE;
}

bool write_file(const char *name, const void *bytes, size_t length)
{
    FILE *file = fopen(name, "wb");

    if (file != NULL && fwrite(bytes, 1, length, file) == length && fclose(file) == 0)
        return true;
    perror(name);
    return false;
}

bool read_file(const char *name, void *bytes, size_t length)
{
    FILE *file = fopen(name, "rb");

    if (file != NULL && fread(bytes, 1, length, file) == length && fclose(file) == 0)
        return true;
    perror(name);
    return false;
}

static double now(void)
{
    struct timespec time;

    clock_gettime(CLOCK_MONOTONIC, &time);
    return 1e9 * (double)time.tv_sec + (double)time.tv_nsec;
}

double quickest(void (*prepare)(void), void (*run)(void))
{
    double best = 0;

    for (int i = 0; i < RUNS; i++) {
        double began, took;

        prepare();
        began = now();
        run();
        took = now() - began;
        if (i == 0 || took < best)
            best = took;
    }
    return best / STEPS;
}
