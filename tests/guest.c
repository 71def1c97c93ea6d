/*
 * What the guest can learn by banked accesses (No. 12): two good blocks, Non-
 * secure and in the same EL1 mode, that differ at exempt places alone, and one
 * list of banked reads and writes, with good and bad operands.  By one batch and
 * by single steps both get the same answers, are alike outside those places after
 * every event, and have inside what each had.
 *
 * The same check is then seen to fail: from Monitor, and where the two blocks
 * differ at a register that is not exempt.  Prints how often each thing was met
 * and fails where one was met too seldom.
 */
#include "chance.h"
#include "events.h"
#include "group.h"
#include "lists.h"
#include "pomurica.h"

#include <inttypes.h>
#include <stdio.h>
#include <string.h>

#define COUNT(list) (sizeof(list) / sizeof((list)[0]))

enum {
    SEED = 12,
    PAIRS = 10000,
    WRONG_PAIRS = 1000, /* of each kind that the check is to see */
    SHORT_LIST = 40,    /* events of a list that is not one of LONG_LIST, at most */
    SELDOM = 100,       /* how often each thing is met in PAIRS, at least */
    SEEN = 30           /* how often the check finds a difference in WRONG_PAIRS, at least */
};

static const uint8_t EXEMPT[] = {
    POMURICA_PLACE_LR_MON, POMURICA_PLACE_SP_MON, POMURICA_PLACE_ELR_HYP, POMURICA_PLACE_SP_HYP, /* 22 to 25 */
    POMURICA_PLACE_SPSR_MON, POMURICA_PLACE_SPSR_HYP,                                            /* 31, 32 */
    POMURICA_PLACE_SCTLR_S, POMURICA_PLACE_HSCTLR, POMURICA_PLACE_VBAR_S,                        /* 37, 39, 40 */
    POMURICA_PLACE_HVBAR, POMURICA_PLACE_MVBAR,                                                  /* 42, 43 */
};

static const uint8_t EL1_MODES[] = {
    POMURICA_MODE_FIQ, POMURICA_MODE_IRQ, POMURICA_MODE_SUPERVISOR, POMURICA_MODE_ABORT, POMURICA_MODE_UNDEFINED,
    POMURICA_MODE_SYSTEM,
};

/* Two blocks and the one list for both. */
struct pair {
    struct list one, other;
};

/* What an event is counted as, on the block of one. */
enum kind {
    READ_DONE, READ_NOT_ZERO, READ_WRITTEN, WRITE_DONE, NOT_ACCESSIBLE, ITS_OWN, NO_SUCH_REGISTER, A_TOO_LARGE, B_OF_A_READ,
    KINDS
};
static const char *const KIND_NAMES[KINDS] = {
    [READ_DONE] = "read", [READ_NOT_ZERO] = "read, and not 0", [READ_WRITTEN] = "read as it was written before",
    [WRITE_DONE] = "written", [NOT_ACCESSIBLE] = "refused: 7", [ITS_OWN] = "refused: 17",
    [NO_SUCH_REGISTER] = "refused: 6", [A_TOO_LARGE] = "refused: 4, A", [B_OF_A_READ] = "refused: 4, B of a read",
};

static struct {
    unsigned long event[KINDS], mode[COUNT(EL1_MODES)], differing[COUNT(EXEMPT)], empty, long_list;
} met;

/* ---------------------------------------------------------- Two blocks */

static bool is_among(const uint8_t *numbers, size_t count, uint32_t number)
{
    return memchr(numbers, (int)number, count) != NULL;
}

static bool is_exempt(size_t place)
{
    return is_among(EXEMPT, COUNT(EXEMPT), (uint32_t)place);
}

static uint32_t mode_of(const uint8_t *block)
{
    return pomurica_get_word(block, POMURICA_PLACE_CPSR) & POMURICA_CPSR_MODE;
}

static bool is_guest(const uint8_t *block)
{
    return (pomurica_get_word(block, POMURICA_PLACE_SCR) & POMURICA_SCR_NS) != 0 &&
           is_among(EL1_MODES, COUNT(EL1_MODES), mode_of(block));
}

static bool is_monitor(const uint8_t *block)
{
    return mode_of(block) == POMURICA_MODE_MONITOR;
}

/* Another word than the one there: any, or one bit of it. */
static void change_word(struct chance *chance, uint8_t *block, size_t place)
{
    const uint32_t word = pomurica_get_word(block, place);
    const uint32_t bit = UINT32_C(1) << any_below(chance, 32);

    pomurica_put_word(block, place, one_in(chance, 2) ? word ^ bit : word ^ (any_word(chance) | bit));
}

/* The same, at some of the exempt places: mostly at most of them, and now and then at one. */
static void change_inside(struct chance *chance, uint8_t *block)
{
    const size_t one = any_below(chance, COUNT(EXEMPT));
    const bool only_one = one_in(chance, 4);

    for (size_t i = 0; i < COUNT(EXEMPT); i++)
        if (i == one || (!only_one && !one_in(chance, 4)))
            change_word(chance, block, EXEMPT[i]);
}

/* ---------------------------------------------------------- One list */

/* A banked access; one in eight has an operand out of its range. */
static struct pomurica_event any_access(struct chance *chance, const uint8_t *block)
{
    const bool reads = one_in(chance, 2);
    struct event event = event_of(chance, reads ? POMURICA_EVENT_BANKED_READ : POMURICA_EVENT_BANKED_WRITE, block);

    if (one_in(chance, 8)) {
        if (reads && one_in(chance, 2))
            event.b = any_word(chance) | 1;
        else
            event.a = one_in(chance, 2) ? LARGEST_A[event.code] + 1 : any_word(chance) | (LARGEST_A[event.code] + 1);
    }
    return (struct pomurica_event){ event.code, event.a, event.b };
}

static size_t any_length(struct chance *chance)
{
    return one_in(chance, 64) ? LONG_LIST : any_below(chance, SHORT_LIST + 1);
}

/* A pair whose blocks are good ones of this kind and differ inside; now and then a register that was written is read again. */
static void any_pair(struct chance *chance, struct pair *pair, bool (*is_wanted)(const uint8_t *))
{
    struct list *const one = &pair->one;

    do
        good_block(chance, one->block);
    while (!is_wanted(one->block));
    one->events_len = one->answers_len = any_length(chance);
    one->block_len = POMURICA_BLOCK_SIZE;
    for (size_t i = 0; i < one->events_len; i++) {
        one->events[i] = any_access(chance, one->block);
        if (i != 0 && one->events[i - 1].code == POMURICA_EVENT_BANKED_WRITE && one_in(chance, 2))
            one->events[i] = (struct pomurica_event){ POMURICA_EVENT_BANKED_READ, one->events[i - 1].a, 0 };
    }
    pair->other = pair->one;
    change_inside(chance, pair->other.block);
}

/* ---------------------------------------------------------- The check */

/* What the two have in common all along. */
struct common {
    bool answers, outside, inside;
};

static bool are_alike(const uint8_t *one, const uint8_t *other)
{
    for (size_t place = 0; place < POMURICA_PLACES; place++)
        if (!is_exempt(place) && pomurica_get_word(one, place) != pomurica_get_word(other, place))
            return false;
    return true;
}

static bool is_kept(const uint8_t *before, const uint8_t *after)
{
    for (size_t i = 0; i < COUNT(EXEMPT); i++)
        if (pomurica_get_word(before, EXEMPT[i]) != pomurica_get_word(after, EXEMPT[i]))
            return false;
    return true;
}

/* By one batch on each block; the guards of both calls are kept, whatever the blocks are. */
static struct common by_batch(const struct pair *pair, struct batched *one)
{
    static struct batched other;

    call_batch(pomurica_batch, &pair->one, one);
    call_batch(pomurica_batch, &pair->other, &other);
    check(one->number == POMURICA_DONE && other.number == POMURICA_DONE, "a batch is not done");
    check(one->guards_kept && other.guards_kept, "a guard, or an event, changed");
    return (struct common){
        .answers = memcmp(answers_of(one), answers_of(&other), one->answers_len * sizeof one->room[0]) == 0,
        .outside = are_alike(block_of(one), block_of(&other)),
        .inside = is_kept(pair->one.block, block_of(one)) && is_kept(pair->other.block, block_of(&other)),
    };
}

/* By single steps, side by side, with a look at both blocks behind each. */
static struct common by_steps(const struct pair *pair)
{
    uint8_t one[POMURICA_BLOCK_SIZE], other[POMURICA_BLOCK_SIZE];
    uint8_t answer[POMURICA_ANSWER_SIZE], other_answer[POMURICA_ANSWER_SIZE];
    struct common common = { true, true, true };

    memcpy(one, pair->one.block, sizeof one);
    memcpy(other, pair->other.block, sizeof other);
    for (size_t i = 0; i < pair->one.events_len; i++) {
        const struct pomurica_event *const event = &pair->one.events[i];

        pomurica_step(one, sizeof one, event->code, event->a, event->b, answer, sizeof answer);
        pomurica_step(other, sizeof other, event->code, event->a, event->b, other_answer, sizeof other_answer);
        common.answers = common.answers && memcmp(answer, other_answer, sizeof answer) == 0;
        common.outside = common.outside && are_alike(one, other);
        common.inside = common.inside && is_kept(pair->one.block, one) && is_kept(pair->other.block, other);
    }
    return common;
}

/* ----------------------------------------------------------- What is met */

static void meet_event(const struct pomurica_event *events, const struct pomurica_answer *answers, size_t i)
{
    const bool reads = events[i].code == POMURICA_EVENT_BANKED_READ, is_done = answers[i].number == POMURICA_DONE;
    const bool is_bad = answers[i].number == POMURICA_BAD_EVENT, is_large = events[i].a > LARGEST_A[events[i].code];

    met.event[READ_DONE] += reads && is_done;
    met.event[READ_NOT_ZERO] += reads && is_done && answers[i].value != 0;
    met.event[READ_WRITTEN] += reads && is_done && i != 0 && events[i - 1].code == POMURICA_EVENT_BANKED_WRITE &&
                               events[i - 1].a == events[i].a && events[i - 1].b == answers[i].value;
    met.event[WRITE_DONE] += !reads && is_done;
    met.event[NOT_ACCESSIBLE] += answers[i].number == POMURICA_NO_RIGHT;
    met.event[ITS_OWN] += answers[i].number == POMURICA_OWN_REGISTER;
    met.event[NO_SUCH_REGISTER] += answers[i].number == POMURICA_NO_REGISTER;
    met.event[A_TOO_LARGE] += is_bad && is_large;
    met.event[B_OF_A_READ] += is_bad && !is_large;
}

static void meet(const struct pair *pair, const struct batched *one)
{
    for (size_t i = 0; i < COUNT(EL1_MODES); i++)
        met.mode[i] += mode_of(pair->one.block) == EL1_MODES[i];
    for (size_t i = 0; i < COUNT(EXEMPT); i++)
        met.differing[i] += pomurica_get_word(pair->one.block, EXEMPT[i]) != pomurica_get_word(pair->other.block, EXEMPT[i]);
    met.empty += pair->one.events_len == 0;
    met.long_list += pair->one.events_len == LONG_LIST;
    for (size_t i = 0; i < pair->one.events_len; i++)
        meet_event(pair->one.events, answers_of(one), i);
}

static void show(const char *name, unsigned long times, unsigned long seldom)
{
    printf("  %-32s %9lu\n", name, times);
    check(times >= seldom, "%s: met %lu times, fewer than %lu", name, times, seldom);
}

static void show_numbered(const char *name, uint32_t number, unsigned long times)
{
    char whole[32];

    snprintf(whole, sizeof whole, "%s %" PRIu32, name, number);
    show(whole, times, SELDOM);
}

static void show_met(void)
{
    for (size_t kind = 0; kind < KINDS; kind++)
        show(KIND_NAMES[kind], met.event[kind], SELDOM);
    for (size_t i = 0; i < COUNT(EL1_MODES); i++)
        show_numbered("in mode", EL1_MODES[i], met.mode[i]);
    for (size_t i = 0; i < COUNT(EXEMPT); i++)
        show_numbered("different at place", EXEMPT[i], met.differing[i]);
    show("no event", met.empty, SELDOM);
    show("1,000 events", met.long_list, SELDOM);
}

/* ------------------------------------------------------------------- All */

static void do_guests(struct chance *chance)
{
    static struct pair pair;
    static struct batched one;

    for (int i = 0; i < PAIRS; i++) {
        const uint64_t seed = chance->seed;
        struct common batch, steps;

        any_pair(chance, &pair, is_guest);
        batch = by_batch(&pair, &one);
        steps = by_steps(&pair);
        if (!check(batch.answers && steps.answers, "the answers differ, made from seed %" PRIu64, seed) ||
            !check(batch.outside && steps.outside, "the blocks differ outside, made from seed %" PRIu64, seed) ||
            !check(batch.inside && steps.inside, "a block changed inside, made from seed %" PRIu64, seed))
            continue;
        meet(&pair, &one);
    }
}

/* How often the check finds what it found of no guest; a batch and single steps find the same answers. */
static struct {
    unsigned long answers, outside, inside;
} found;

static void find(const struct pair *pair)
{
    static struct batched one;
    const struct common batch = by_batch(pair, &one), steps = by_steps(pair);

    check(batch.answers == steps.answers, "the answers differ by a batch, or by single steps, alone");
    found.answers += !batch.answers;
    found.outside += !steps.outside;
    found.inside += !steps.inside;
}

static void do_monitor(struct chance *chance)
{
    static struct pair pair;

    memset(&found, 0, sizeof found);
    for (int i = 0; i < WRONG_PAIRS; i++) {
        any_pair(chance, &pair, is_monitor);
        find(&pair);
    }
    show("Monitor: other answers", found.answers, SEEN);
    show("Monitor: changed inside", found.inside, SEEN);
}

/* Guests that differ at one register more: at whichever that is not exempt. */
static void do_not_exempt(struct chance *chance)
{
    static struct pair pair;

    memset(&found, 0, sizeof found);
    for (int i = 0; i < WRONG_PAIRS; i++) {
        size_t place;

        any_pair(chance, &pair, is_guest);
        do
            place = any_below(chance, POMURICA_PLACE_CPSR);
        while (is_exempt(place));
        change_word(chance, pair.other.block, place);
        find(&pair);
    }
    show("not exempt: other answers", found.answers, SEEN);
    show("not exempt: different outside", found.outside, SEEN);
    check(found.inside == 0, "a guest changed a word inside %lu times", found.inside);
}

int main(void)
{
    struct chance chance = { .seed = SEED };

    open_events(LIST_MOST);
    printf("%d pairs, seed %d\n", PAIRS, SEED);
    group("two guests, one list of banked accesses: same answers, alike outside, kept inside");
    do_guests(&chance);
    group("every kind of access, of mode and of difference met often enough");
    show_met();
    group("from Monitor the same check finds a difference");
    do_monitor(&chance);
    group("at a register that is not exempt the same check finds a difference");
    do_not_exempt(&chance);
    return summary();
}
