#include "lists.h"

#include "events.h"

#include <string.h>

/* What guard elements, and answers before a call, are made of: no number has four such bytes. */
#define GUARD_BYTE 0xA5

static bool are_guards(const void *elements, size_t size)
{
    const uint8_t *const bytes = elements;

    return bytes[0] == GUARD_BYTE && memcmp(bytes, bytes + 1, size - 1) == 0;
}

/* ---------------------------------------------------------- The answers */

static struct pomurica_answer *lend_answers(struct batched *batched, size_t answers_len)
{
    batched->answers_len = answers_len;
    memset(batched->room, GUARD_BYTE, sizeof batched->room);
    return batched->room + LIST_GUARDS;
}

/* All elements behind the answers, and not only the nearest: a wrong length may lead far. */
static bool are_answers_guarded(const struct batched *batched)
{
    const size_t end = LIST_GUARDS + batched->answers_len;

    return are_guards(batched->room, LIST_GUARDS * sizeof batched->room[0]) &&
           are_guards(batched->room + end, sizeof batched->room - end * sizeof batched->room[0]);
}

/* ------------------------------------------------------------- The call */

void call_batch(batch_function *batch, const struct list *list, struct batched *batched)
{
    const struct pomurica_event *events = lend_events(list->events, list->events_len);
    struct pomurica_answer *answers = lend_answers(batched, list->answers_len);
    uint8_t *block = lend(&batched->block, list->block, list->block_len, list->events_len % (MOST_SHIFT + 1));

    batched->number = batch(events, list->events_len, answers, list->answers_len, block, list->block_len);
    batched->guards_kept = take_back(&batched->block);
    batched->guards_kept = batched->guards_kept && are_answers_guarded(batched) && are_events_kept();
}

const struct pomurica_answer *answers_of(const struct batched *batched)
{
    return batched->room + LIST_GUARDS;
}

const uint8_t *block_of(const struct batched *batched)
{
    return bytes_of(&batched->block);
}

bool is_untouched(const struct batched *batched)
{
    return are_guards(batched->room, sizeof batched->room) && is_unchanged(&batched->block);
}

const char *batch_difference(const struct batched *one, const struct batched *other)
{
    if (one->number != other->number)
        return "the numbers differ";
    if (memcmp(answers_of(one), answers_of(other), one->answers_len * sizeof one->room[0]) != 0)
        return "the answers differ";
    if (!are_same(&one->block, &other->block))
        return "the blocks differ";
    return one->guards_kept && other->guards_kept ? NULL : "a guard, or an event, changed";
}
