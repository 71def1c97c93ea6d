/*
 * The batch behind the header against another, on lists of chance: number,
 * every answer, every byte of the block, and guards.  Where it is done, also
 * against single steps in order, and against itself with the list cut in two.
 *
 *     compare_batch [THOUSANDS SEED]
 *
 * The other batch is the second implementation's, and the single step the
 * header's, unless OTHER_BATCH and SINGLE_STEP say otherwise.  Prints how often
 * each thing was met and fails where one was met too seldom.
 */
#include "any_list.h"
#include "events.h"
#include "group.h"
#include "numbers.h"
#include "question.h"
#include "signals.h"

#include <inttypes.h>
#include <stdio.h>
#include <stdlib.h>
#include <string.h>

#ifndef OTHER_BATCH
#define OTHER_BATCH second_batch
#endif
#ifndef SINGLE_STEP
#define SINGLE_STEP pomurica_step
#endif

batch_function OTHER_BATCH;
step_function SINGLE_STEP;

/* Unless the arguments say otherwise. */
#define THOUSANDS 10
#define SEED 1

/* How often each thing is met in a thousand lists, at least. */
#define SELDOM 1

/* What a list is counted as. */
enum kind {
    OF_NONE, OF_ONE, OF_TWO, OF_FEW, OF_MANY,
    REFUSED_BETWEEN, MOVED, NOT_GOOD, CUT_INSIDE,
    MORE_EVENTS, MORE_ANSWERS, NONE_AND_ONE, ONE_AND_NONE, SHORT_BLOCK, LONG_BLOCK, NONE_AND_BLOCK,
    KINDS
};
static const char *const KIND_NAMES[KINDS] = {
    [OF_NONE] = "no event", [OF_ONE] = "one event", [OF_TWO] = "two events", [OF_FEW] = "3 to 40 events",
    [OF_MANY] = "1,000 events",
    [REFUSED_BETWEEN] = "refused between done ones", [MOVED] = "the block moved", [NOT_GOOD] = "the block is not good",
    [CUT_INSIDE] = "cut with events on both sides",
    [MORE_EVENTS] = "BAD_SIZE: more events", [MORE_ANSWERS] = "BAD_SIZE: more answers",
    [NONE_AND_ONE] = "BAD_SIZE: no event, one answer", [ONE_AND_NONE] = "BAD_SIZE: one event, no answer",
    [SHORT_BLOCK] = "BAD_SIZE: block too short", [LONG_BLOCK] = "BAD_SIZE: block too long",
    [NONE_AND_BLOCK] = "BAD_SIZE: no event, block",
};

/* How often each kind of list, each number of an answer, and each end of a check that is of a virtual interrupt was met. */
static struct {
    unsigned long list[KINDS], answer[STEP_NUMBERS], signal[SIGNALS];
} met;

/* ----------------------------------------------------------- What is met */

static void meet_bad_size(const struct list *list)
{
    met.list[MORE_EVENTS] += list->events_len > list->answers_len;
    met.list[MORE_ANSWERS] += list->events_len < list->answers_len;
    met.list[NONE_AND_ONE] += list->events_len == 0 && list->answers_len == 1;
    met.list[ONE_AND_NONE] += list->events_len == 1 && list->answers_len == 0;
    met.list[SHORT_BLOCK] += list->block_len < POMURICA_BLOCK_SIZE;
    met.list[LONG_BLOCK] += list->block_len > POMURICA_BLOCK_SIZE;
    met.list[NONE_AND_BLOCK] += list->events_len == 0 && list->answers_len == 0;
}

static enum kind length_of(const struct list *list)
{
    if (list->events_len > SHORT_LIST)
        return OF_MANY;
    return list->events_len > 2 ? OF_FEW : OF_NONE + (enum kind)list->events_len;
}

/* Whether a done event, a refused one and again a done one come in this order. */
static bool is_refused_between(const struct batched *batched)
{
    const struct pomurica_answer *const answers = answers_of(batched);
    int met_so_far = 0;

    for (size_t i = 0; i < batched->answers_len && met_so_far < 3; i++)
        met_so_far += (answers[i].number == POMURICA_DONE) == (met_so_far != 1);
    return met_so_far == 3;
}

/* A block that is not good answers the first event so, and whatever follows; a note or a return may have that answer too. */
static bool is_not_good(const struct list *list, const struct batched *batched)
{
    const uint32_t first = list->events_len == 0 ? POMURICA_DONE : answers_of(batched)->number;

    if (first != POMURICA_BAD_MODE && first != POMURICA_BAD_STATE)
        return false;
    return list->events[0].code != POMURICA_EVENT_NOTE && list->events[0].code != POMURICA_EVENT_RETURN;
}

static void meet_done(const struct list *list, const struct batched *batched)
{
    met.list[length_of(list)]++;
    met.list[REFUSED_BETWEEN] += is_refused_between(batched);
    met.list[MOVED] += !is_unchanged(&batched->block);
    met.list[NOT_GOOD] += is_not_good(list, batched);
    for (size_t i = 0; i < list->events_len; i++) {
        const struct pomurica_event *const event = &list->events[i];
        const struct pomurica_answer *const answer = &answers_of(batched)[i];

        met.answer[answer->number]++;
        met.signal[signal_of(event->code, event->a, answer->number, answer->value)]++;
    }
}

/* -------------------------------------------------------------- One list */

/* Whether both do the list alike; ours is then what the one behind the header did. */
static bool agree(const struct list *list, struct batched *ours)
{
    static struct batched theirs;
    const char *what;

    call_batch(pomurica_batch, list, ours);
    call_batch(OTHER_BATCH, list, &theirs);
    what = batch_difference(ours, &theirs);
    return check(what == NULL, "%s; number %" PRIu32 ", the other %" PRIu32, what, ours->number, theirs.number);
}

/* Answers and block are those of single steps done in order. */
static bool is_as_single_steps(const struct list *list, const struct batched *ours)
{
    const struct pomurica_answer *const answers = answers_of(ours);
    uint8_t block[POMURICA_BLOCK_SIZE], answer[POMURICA_ANSWER_SIZE];

    memcpy(block, list->block, sizeof block);
    for (size_t i = 0; i < list->events_len; i++) {
        const struct pomurica_event *const event = &list->events[i];
        const uint32_t number = SINGLE_STEP(block, sizeof block, event->code, event->a, event->b, answer, sizeof answer);
        const uint32_t value = pomurica_get_word(answer, POMURICA_ANSWER_VALUE);

        if (!check(answers[i].number == number && answers[i].value == value,
                   "event %zu: %" PRIu32 " 0x%" PRIX32 ", by a single step %" PRIu32 " 0x%" PRIX32, i,
                   answers[i].number, answers[i].value, number, value))
            return false;
    }
    return check(memcmp(block, block_of(ours), sizeof block) == 0, "the block is not that of single steps");
}

/* Does count events of the list from one on, on the block; which moves on. */
static const struct pomurica_answer *do_part(const struct list *list, size_t from, size_t count, uint8_t *block)
{
    static struct list part;
    static struct batched batched;

    memcpy(part.events, list->events + from, count * sizeof part.events[0]);
    memcpy(part.block, block, POMURICA_BLOCK_SIZE);
    part.events_len = part.answers_len = count;
    part.block_len = POMURICA_BLOCK_SIZE;
    call_batch(pomurica_batch, &part, &batched);
    memcpy(block, block_of(&batched), POMURICA_BLOCK_SIZE);
    return answers_of(&batched);
}

/* A batch of some events and one of the rest leave what the batch of all leaves. */
static bool is_as_two_batches(const struct list *list, size_t cut, const struct batched *ours)
{
    static struct pomurica_answer answers[LIST_MOST];
    const size_t rest = list->events_len - cut;
    uint8_t block[POMURICA_BLOCK_SIZE];

    memcpy(block, list->block, sizeof block);
    memcpy(answers, do_part(list, 0, cut, block), cut * sizeof answers[0]);
    memcpy(answers + cut, do_part(list, cut, rest, block), rest * sizeof answers[0]);
    met.list[CUT_INSIDE] += cut != 0 && rest != 0;
    return check(memcmp(answers, answers_of(ours), list->events_len * sizeof answers[0]) == 0 &&
                     memcmp(block, block_of(ours), sizeof block) == 0,
                 "cut behind %zu of %zu events, it differs", cut, list->events_len);
}

/* By the lengths alone. */
static uint32_t number_due(const struct list *list)
{
    return list->events_len == list->answers_len && list->block_len == POMURICA_BLOCK_SIZE ? POMURICA_DONE : POMURICA_BAD_SIZE;
}

static bool compare_list(struct chance *chance, const struct list *list)
{
    static struct batched ours;

    if (!agree(list, &ours) ||
        !check(ours.number == number_due(list), "number %" PRIu32 ", not %" PRIu32, ours.number, number_due(list)))
        return false;
    if (ours.number == POMURICA_BAD_SIZE) {
        meet_bad_size(list);
        return check(is_untouched(&ours), "BAD_SIZE, and something changed");
    }
    if (!is_as_single_steps(list, &ours))
        return false;
    meet_done(list, &ours);
    return is_as_two_batches(list, any_below(chance, (uint32_t)list->events_len + 1), &ours);
}

/* ------------------------------------------------------------------- All */

static void compare_random(struct chance *chance, unsigned long count)
{
    static struct list list;

    for (unsigned long i = 0; i < count; i++) {
        const uint64_t seed = chance->seed;

        any_list(chance, &list);
        if (!compare_list(chance, &list) && is_telling())
            printf("        %zu events, %zu answers, block of %zu bytes, made from seed %" PRIu64 "\n",
                   list.events_len, list.answers_len, list.block_len, seed);
    }
}

static void show(const char *name, unsigned long times, unsigned long seldom)
{
    printf("  %-32s %9lu\n", name, times);
    check(times >= seldom, "%s: met %lu times, fewer than %lu", name, times, seldom);
}

static void show_met(unsigned long thousands)
{
    const unsigned long seldom = SELDOM * thousands;

    for (uint32_t kind = 0; kind < KINDS; kind++)
        show(KIND_NAMES[kind], met.list[kind], seldom);
    for (uint32_t number = 0; number < STEP_NUMBERS; number++)
        if (is_of_step(number) && number != POMURICA_BAD_SIZE)
            show(pomurica_number_name(number), met.answer[number], seldom);
        else
            check(met.answer[number] == 0, "an event has the answer %s", pomurica_number_name(number));
    show_signals(met.signal, seldom);
}

int main(int argc, char **argv)
{
    const unsigned long thousands = argc > 1 ? strtoul(argv[1], NULL, 10) : THOUSANDS;
    struct chance chance = { .seed = argc > 2 ? strtoull(argv[2], NULL, 10) : SEED };

    open_events(LIST_MOST);
    printf("%lu thousand lists, seed %" PRIu64 "\n", thousands, chance.seed);
    group("lists of chance, side by side, by single steps, and cut in two");
    compare_random(&chance, thousands * 1000);
    group("every kind of list met often enough");
    show_met(thousands);
    return summary();
}
