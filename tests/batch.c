/*
 * The batch of the archive, called from C: a worked list whose answers and block
 * are written out here, lists of several lengths against single steps, blocks
 * that are not good, and each kind of wrong length.  Guards stand around both
 * lists and the block (lists.h).
 */
#include "events.h"
#include "group.h"
#include "lists.h"
#include "pomurica.h"

#include <inttypes.h>
#include <stdio.h>
#include <string.h>

#define COUNT(list) (sizeof(list) / sizeof((list)[0]))

/* Of four different bytes. */
#define NEW_WORD 0x12345678

/* The first code that is none. */
#define UNKNOWN (POMURICA_EVENT_RETURN + 1)

/* HVC enabled, SMC disabled. */
#define CALLS (POMURICA_SCR_NS | POMURICA_SCR_HCE | POMURICA_SCR_SCD)

/* A virtual FIQ is signalled. */
#define SIGNALLED (POMURICA_HCR_FMO | POMURICA_HCR_VF)

/* A list from Non-secure Supervisor at 0x8000, with vectors at 0x10000000, and what each event answers. */
static const struct {
    struct pomurica_event event;
    struct pomurica_answer answer;
} WORKED[] = {
    { { POMURICA_EVENT_INTERRUPT_CHECK, POMURICA_LINE_IRQ, 0 }, { POMURICA_DONE, 0x31218 } }, /* enters IRQ mode */
    { { POMURICA_EVENT_INTERRUPT_CHECK, POMURICA_LINE_IRQ, 0 }, { POMURICA_DONE, 0 } },       /* masked by that entry */
    { { POMURICA_EVENT_INTERRUPT_CHECK, POMURICA_LINE_VIRTUAL_IRQ, 0 }, { POMURICA_BAD_EVENT, 0 } },
    { { POMURICA_EVENT_SVC, 1, 0 }, { POMURICA_BAD_EVENT, 0 } },
    { { UNKNOWN, 0, 0 }, { POMURICA_BAD_EVENT, 0 } },
    { { POMURICA_EVENT_NOTE, POMURICA_PLACE_PC, 0x9000 }, { POMURICA_DONE, 0 } },
    { { POMURICA_EVENT_NOTE, POMURICA_PLACE_CPSR, 0 }, { POMURICA_BAD_MODE, 0 } },
    { { POMURICA_EVENT_NOTE, POMURICA_PLACE_HCR, POMURICA_HCR_TGE }, { POMURICA_BAD_STATE, 0 } },
    { { POMURICA_EVENT_SVC, 0, 0 }, { POMURICA_DONE, 0x1308 } },                              /* enters Supervisor */
    { { POMURICA_EVENT_RETURN, 1, 0 }, { POMURICA_BAD_EVENT, 0 } },
    { { POMURICA_EVENT_RETURN, 0, 0 }, { POMURICA_DONE, 0 } },                                /* and back behind the SVC */
    { { POMURICA_EVENT_BANKED_READ, 18, 0 }, { POMURICA_DONE, 0x9004 } },                     /* LR_svc: as that left it */
    { { POMURICA_EVENT_SVC, 0, 0 }, { POMURICA_DONE, 0x1308 } },                              /* once more */
    { { POMURICA_EVENT_BANKED_WRITE, 17, NEW_WORD }, { POMURICA_DONE, 0 } },                  /* SP_irq */
    { { POMURICA_EVENT_BANKED_READ, 17, 0 }, { POMURICA_DONE, NEW_WORD } },
    { { POMURICA_EVENT_NOTE, POMURICA_PLACE_HCR, SIGNALLED }, { POMURICA_DONE, 0 } },
    { { POMURICA_EVENT_INTERRUPT_CHECK, POMURICA_LINE_VIRTUAL_FIQ, 0 }, { POMURICA_BAD_EVENT, 0 } },
    { { POMURICA_EVENT_INTERRUPT_CHECK, 0, 0 }, { POMURICA_DONE, 0x5111C } },                 /* virtual FIQ, by VF */
    { { POMURICA_EVENT_RETURN, 4, 0 }, { POMURICA_DONE, 0 } },
    { { POMURICA_EVENT_HVC, 0, 0 }, { POMURICA_DISABLED, 0 } },
    { { POMURICA_EVENT_NOTE, POMURICA_PLACE_SCR, CALLS }, { POMURICA_DONE, 0 } },
    { { POMURICA_EVENT_SMC, 0, 0 }, { POMURICA_DISABLED, 0 } },
    { { POMURICA_EVENT_HVC, 0, 0 }, { POMURICA_DONE, 0x1A14 } },                              /* enters Hyp */
    { { POMURICA_EVENT_HYP_TRAP, 0, 0 }, { POMURICA_NOT_HERE, 0 } },
    { { POMURICA_EVENT_BANKED_READ, 7, 0 }, { POMURICA_NO_REGISTER, 0 } },
    { { POMURICA_EVENT_BANKED_READ, 62, 0 }, { POMURICA_OWN_REGISTER, 0 } },
    { { POMURICA_EVENT_BANKED_READ, 29, 0 }, { POMURICA_NO_RIGHT, 0 } },
    { { POMURICA_EVENT_BANKED_READ, 30, 0 }, { POMURICA_DONE, 0x1000000C } },                 /* ELR_hyp: behind the HVC */
    { { POMURICA_EVENT_NOTE, POMURICA_PLACE_HDCR, POMURICA_HDCR_TDE }, { POMURICA_DONE, 0 } },
    { { POMURICA_EVENT_PREFETCH_ABORT, POMURICA_ABORT_DEBUG, 0 }, { POMURICA_DONE, 0x1A0C } }, /* in Hyp itself */
    { { POMURICA_EVENT_PREFETCH_ABORT, 5, 0 }, { POMURICA_BAD_EVENT, 0 } },
    { { POMURICA_EVENT_RETURN, 0, 0 }, { POMURICA_DONE, 0 } },                                /* to where it was */
    { { POMURICA_EVENT_NOTE, POMURICA_PLACE_CPSR, POMURICA_MODE_USER }, { POMURICA_DONE, 0 } },
    { { POMURICA_EVENT_PREFETCH_ABORT, POMURICA_ABORT_DEBUG, 0 }, { POMURICA_DONE, 0x1A14 } }, /* by TDE */
    { { POMURICA_EVENT_NOTE, POMURICA_PLACES, 0 }, { POMURICA_BAD_EVENT, 0 } },
};

/* The words that are not 0 after the list, all of them. */
static const struct {
    uint32_t place, word;
} AFTER[] = {
    { POMURICA_PLACE_LR_FIQ, 0x1000000C },
    { POMURICA_PLACE_LR_IRQ, 0x8004 },
    { POMURICA_PLACE_SP_IRQ, NEW_WORD },
    { POMURICA_PLACE_LR_SVC, 0x9008 },
    { POMURICA_PLACE_ELR_HYP, 0x14 },
    { POMURICA_PLACE_SPSR_FIQ, POMURICA_CPSR_A | POMURICA_CPSR_I | POMURICA_MODE_SUPERVISOR },
    { POMURICA_PLACE_SPSR_IRQ, POMURICA_MODE_SUPERVISOR },
    { POMURICA_PLACE_SPSR_SVC, POMURICA_CPSR_A | POMURICA_CPSR_I | POMURICA_MODE_IRQ },
    { POMURICA_PLACE_SPSR_HYP, POMURICA_MODE_USER },
    { POMURICA_PLACE_CPSR, POMURICA_CPSR_A | POMURICA_CPSR_I | POMURICA_CPSR_F | POMURICA_MODE_HYP },
    { POMURICA_PLACE_PC, 0x14 },
    { POMURICA_PLACE_SCR, CALLS },
    { POMURICA_PLACE_HCR, SIGNALLED },
    { POMURICA_PLACE_VBAR_NS, 0x10000000 },
    { POMURICA_PLACE_HDCR, POMURICA_HDCR_TDE },
};

enum {
    WORKED_LEN = COUNT(WORKED)
};

/* The worked list over and over, up to so many events, with every length right. */
static void put_list(struct list *list, size_t length)
{
    for (size_t i = 0; i < length; i++)
        list->events[i] = WORKED[i % WORKED_LEN].event;
    list->events_len = list->answers_len = length;
    list->block_len = POMURICA_BLOCK_SIZE;
    memset(list->block, 0, sizeof list->block);
    pomurica_put_word(list->block, POMURICA_PLACE_CPSR, POMURICA_MODE_SUPERVISOR);
    pomurica_put_word(list->block, POMURICA_PLACE_PC, 0x8000);
    pomurica_put_word(list->block, POMURICA_PLACE_SCR, POMURICA_SCR_NS);
    pomurica_put_word(list->block, POMURICA_PLACE_VBAR_NS, 0x10000000);
}

/* The call has this number and keeps the guards and the events. */
static void expect_number(const struct list *list, struct batched *batched, uint32_t number)
{
    call_batch(pomurica_batch, list, batched);
    check(batched->number == number, "%zu events: number %" PRIu32 ", not %" PRIu32, list->events_len, batched->number, number);
    check(batched->guards_kept, "%zu events: a guard, or an event, changed", list->events_len);
}

static void expect_answer(const struct batched *batched, size_t i, uint32_t number, uint32_t value)
{
    const struct pomurica_answer *const answer = &answers_of(batched)[i];

    check(answer->number == number && answer->value == value,
          "event %zu: %" PRIu32 " 0x%" PRIX32 ", not %" PRIu32 " 0x%" PRIX32, i, answer->number, answer->value, number, value);
}

static void do_worked(void)
{
    static struct list list;
    static struct batched batched;
    uint8_t due[POMURICA_BLOCK_SIZE] = { 0 };

    put_list(&list, WORKED_LEN);
    expect_number(&list, &batched, POMURICA_DONE);
    for (size_t i = 0; i < WORKED_LEN; i++)
        expect_answer(&batched, i, WORKED[i].answer.number, WORKED[i].answer.value);
    for (size_t i = 0; i < COUNT(AFTER); i++)
        pomurica_put_word(due, AFTER[i].place, AFTER[i].word);
    for (size_t place = 0; place < POMURICA_PLACES; place++)
        check(pomurica_get_word(block_of(&batched), place) == pomurica_get_word(due, place),
              "place %zu: 0x%" PRIX32 ", not 0x%" PRIX32, place, pomurica_get_word(block_of(&batched), place),
              pomurica_get_word(due, place));
}

/* Against single steps done in order; of no event, nothing changes. */
static void do_length(size_t length)
{
    static struct list list;
    static struct batched batched;
    uint8_t block[POMURICA_BLOCK_SIZE], answer[POMURICA_ANSWER_SIZE];

    put_list(&list, length);
    expect_number(&list, &batched, POMURICA_DONE);
    memcpy(block, list.block, sizeof block);
    for (size_t i = 0; i < length; i++) {
        const struct pomurica_event *const event = &list.events[i];
        const uint32_t number = pomurica_step(block, sizeof block, event->code, event->a, event->b, answer, sizeof answer);

        expect_answer(&batched, i, number, pomurica_get_word(answer, POMURICA_ANSWER_VALUE));
    }
    check(memcmp(block, block_of(&batched), sizeof block) == 0, "%zu events: the block differs", length);
}

/* A block that is not good by its CPSR refuses every event so, and no note repairs it. */
static void do_not_good(uint32_t cpsr, uint32_t number)
{
    static struct list list;
    static struct batched batched;

    put_list(&list, WORKED_LEN);
    list.events[WORKED_LEN / 2] = (struct pomurica_event){ POMURICA_EVENT_NOTE, POMURICA_PLACE_CPSR, POMURICA_MODE_SUPERVISOR };
    pomurica_put_word(list.block, POMURICA_PLACE_CPSR, cpsr);
    expect_number(&list, &batched, POMURICA_DONE);
    for (size_t i = 0; i < WORKED_LEN; i++)
        expect_answer(&batched, i, number, 0);
    check(is_unchanged(&batched.block), "CPSR 0x%" PRIX32 ": the block changed", cpsr);
}

/* No element and no byte changes. */
static void do_bad_size(size_t events_len, size_t answers_len, size_t block_len)
{
    static struct list list;
    static struct batched batched;

    put_list(&list, events_len);
    list.answers_len = answers_len;
    list.block_len = block_len;
    expect_number(&list, &batched, POMURICA_BAD_SIZE);
    check(is_untouched(&batched), "%zu events, %zu answers, block of %zu bytes: something changed", events_len, answers_len,
          block_len);
}

static void do_unequal(void)
{
    static const size_t LENGTHS[] = { 0, 1, 2, WORKED_LEN, LONG_LIST };

    for (size_t i = 0; i < COUNT(LENGTHS); i++) {
        do_bad_size(LENGTHS[i] + 1, LENGTHS[i], POMURICA_BLOCK_SIZE);
        do_bad_size(LENGTHS[i], LENGTHS[i] + 1, POMURICA_BLOCK_SIZE);
    }
    do_bad_size(LONG_LIST, 0, POMURICA_BLOCK_SIZE);
    do_bad_size(0, LONG_LIST, POMURICA_BLOCK_SIZE);
}

/* Every length of a block from 0 to 210, for lists that are long, short and empty. */
static void do_blocks(void)
{
    for (size_t block_len = 0; block_len <= LONGEST_TRIED; block_len++) {
        if (block_len == POMURICA_BLOCK_SIZE)
            continue;
        do_bad_size(0, 0, block_len);
        do_bad_size(1, 1, block_len);
        do_bad_size(LONG_LIST, LONG_LIST, block_len);
        do_bad_size(2, 1, block_len);
    }
}

static void do_null(void)
{
    struct pomurica_event event = { POMURICA_EVENT_SVC, 0, 0 };
    struct pomurica_answer answer = { NEW_WORD, NEW_WORD };
    uint8_t block[POMURICA_BLOCK_SIZE] = { POMURICA_MODE_USER }, before[POMURICA_BLOCK_SIZE];

    memcpy(before, block, sizeof before);
    check(pomurica_batch(NULL, 0, NULL, 0, block, sizeof block) == POMURICA_DONE, "no lists");
    check(pomurica_batch(&event, 1, NULL, 0, block, sizeof block) == POMURICA_BAD_SIZE, "no answers");
    check(pomurica_batch(NULL, 0, &answer, 1, block, sizeof block) == POMURICA_BAD_SIZE, "no events");
    check(pomurica_batch(&event, 1, &answer, 1, NULL, 0) == POMURICA_BAD_SIZE, "no block");
    check(pomurica_batch(NULL, 0, NULL, 0, NULL, 0) == POMURICA_BAD_SIZE, "nothing at all");
    check(answer.number == NEW_WORD && answer.value == NEW_WORD, "the answer changed");
    check(memcmp(block, before, sizeof block) == 0, "the block changed");
}

int main(void)
{
    static const size_t LENGTHS[] = { 0, 1, 2, 3, WORKED_LEN, LONG_LIST };

    open_events(LIST_MOST);
    group("a worked list: done and refused events of every kind");
    do_worked();
    group("lists of 0, 1, 2 and more events to 1,000, as single steps");
    for (size_t i = 0; i < COUNT(LENGTHS); i++)
        do_length(LENGTHS[i]);
    group("a block that is not good: each event is refused, the batch is done");
    do_not_good(0, POMURICA_BAD_MODE);
    do_not_good(POMURICA_CPSR_BITS_24_21 | POMURICA_MODE_SUPERVISOR, POMURICA_BAD_STATE);
    group("lists of unequal lengths");
    do_unequal();
    group("every length of the block from 0 to 210 but its own");
    do_blocks();
    group("NULL with length 0");
    do_null();
    return summary();
}
