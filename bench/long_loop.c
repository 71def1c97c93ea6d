/*
 * Explaining and counting beside judging, to be counted: one call over a trace
 * of so many Steps, of all codes in turn, 65,535 unless said.
 *
 *     long_loop WHO [STEPS]
 *
 * WHO: `nothing`, `judging` and `explaining` have a trace whose last Step is
 * wrong; `nothing-right`, `accepting` and `counting` one that is right.
 */
#include "long_trace.h"

#include "pomurica.h"

#include <stdio.h>
#include <stdlib.h>
#include <string.h>

/* Whether the one call came to what the trace deserves; of `nothing` there is no call. */
static bool call(const char *who, size_t length)
{
    static uint8_t counts[POMURICA_COUNTS_SIZE];
    uint8_t told[POMURICA_EXPLANATION_SIZE];

    if (strcmp(who, "judging") == 0)
        return pomurica_check(long_trace, length, told, POMURICA_REPORT_SIZE) == POMURICA_WRONG_STEP;
    if (strcmp(who, "explaining") == 0)
        return pomurica_explain(long_trace, length, told, sizeof told) == POMURICA_WRONG_STEP;
    if (strcmp(who, "accepting") == 0)
        return pomurica_check(long_trace, length, told, POMURICA_REPORT_SIZE) == POMURICA_DONE;
    if (strcmp(who, "counting") == 0)
        return pomurica_count(long_trace, length, counts, sizeof counts) == POMURICA_DONE;
    return strncmp(who, "nothing", strlen("nothing")) == 0;
}

int main(int argc, char **argv)
{
    const char *const who = argc > 1 ? argv[1] : "";
    const unsigned long steps = argc > 2 ? strtoul(argv[2], NULL, 10) : POMURICA_MOST_STEPS;
    const bool right = strcmp(who, "nothing-right") == 0 || strcmp(who, "accepting") == 0 || strcmp(who, "counting") == 0;

    if (argc < 2 || argc > 3 || steps == 0 || steps > POMURICA_MOST_STEPS) {
        fprintf(stderr, "usage: long_loop WHO [STEPS]\n");
        return 2;
    }
    return call(who, record_long_trace((uint32_t)steps, right)) ? 0 : 1;
}
