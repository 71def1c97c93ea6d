/*
 * The step behind the header against another, on random blocks and events:
 * number, block, answer bytes and guard bytes.
 *
 *     compare [MILLIONS SEED]
 *
 * The other is the second implementation's, unless OTHER_STEP says otherwise.
 * Prints how often each thing was met and fails where one was met too seldom.
 */
#include "enough.h"
#include "group.h"
#include "met.h"
#include "pomurica.h"
#include "question.h"

#include "../second/words.h"

#include <inttypes.h>
#include <stdio.h>
#include <stdlib.h>

/* Unless the compiler is told fast_step, the one of bench/. */
#ifndef OTHER_STEP
#define OTHER_STEP second_step
#endif
step_function OTHER_STEP;

/* Unless the arguments say otherwise. */
#define MILLIONS 5
#define SEED 1

/* Enough to run the step again by hand. */
static void tell(const struct question *question)
{
    printf("        block of %zu bytes, answer of %zu, event %" PRIu32 " %" PRIu32 " 0x%" PRIX32 "\n        ",
           question->block_len, question->answer_len,
           question->event.code, question->event.a, question->event.b);
    for (size_t i = 0; i < question->block_len; i++)
        printf("%02X", question->block[i]);
    printf("\n");
}

/* Whether both answer the question alike; ours is then what the step behind the header did. */
static bool agree(const struct question *question, struct call *ours)
{
    struct call theirs;
    const char *what;

    call_step(pomurica_step, question, ours);
    call_step(OTHER_STEP, question, &theirs);
    what = difference(ours, &theirs);
    if (check(what == NULL, "%s; number %" PRIu32 ", the other %" PRIu32, what, ours->number, theirs.number))
        return true;
    if (is_telling())
        tell(question);
    return false;
}

/* Worked case k, side by side: LR_mon read from Secure Supervisor. */
static void compare_case_k(void)
{
    struct question question = {
        .block_len = BLOCK_SIZE, .answer_len = ANSWER_SIZE,
        .event = { CODE_BANKED_READ, 28, 0 },
    };
    struct call ours;

    for (uint32_t place = 0; place < PLACES; place++)
        put_word(question.block + 4 * place, place == SCR || place == HCR ? 0 : 0x100 + place);
    put_word(question.block + 4 * CPSR, MODE_SUPERVISOR);
    agree(&question, &ours);
    check(ours.number == DONE && get_word(bytes_of(&ours.answer) + 4) == 0x100 + LR_mon,
          "not LR_mon");
}

int main(int argc, char **argv)
{
    const unsigned long millions = argc > 1 ? strtoul(argv[1], NULL, 10) : MILLIONS;
    struct chance chance = { .seed = argc > 2 ? strtoull(argv[2], NULL, 10) : SEED };
    static struct question question;
    static struct call ours;

    printf("%lu million random steps, seed %" PRIu64 "\n", millions, chance.seed);
    group("worked case k, side by side");
    compare_case_k();
    group("random steps, side by side");
    for (unsigned long i = 0; i < millions * 1000000; i++) {
        ask(&chance, &question);
        if (agree(&question, &ours))
            count_step(&question, &ours);
    }
    group("every kind of step met often enough");
    show_met(millions);
    return summary();
}
