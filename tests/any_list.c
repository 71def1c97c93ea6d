#include "any_list.h"

#include "../second/second.h"
#include "../second/words.h"

#include <string.h>

static size_t any_length(struct chance *chance)
{
    if (one_in(chance, 64))
        return LONG_LIST;
    return any_below(chance, one_in(chance, 3) ? 3 : SHORT_LIST + 1);
}

/* The events, each on the block as it stands when its turn comes. */
static void any_events(struct chance *chance, struct list *list)
{
    uint8_t block[BLOCK_SIZE], answer[ANSWER_SIZE];

    memcpy(block, list->block, sizeof block);
    for (size_t i = 0; i < list->events_len; i++) {
        const struct event event = any_event(chance, block);

        list->events[i] = (struct pomurica_event){ event.code, event.a, event.b };
        second_step(block, sizeof block, event.code, event.a, event.b, answer, sizeof answer);
    }
}

/* One length wrong: of the answers by one, or by any number; or of the block by one, or by any. */
static void spoil_length(struct chance *chance, struct list *list)
{
    switch (any_below(chance, 6)) {
    case 0:
        list->answers_len++;
        break;
    case 1:
        list->answers_len -= list->answers_len != 0;
        break;
    case 2:
        list->answers_len = any_below(chance, LIST_MOST + 1);
        break;
    case 3:
        list->block_len++;
        break;
    case 4:
        list->block_len--;
        break;
    default:
        list->block_len = any_below(chance, sizeof list->block + 1);
        break;
    }
}

void any_list(struct chance *chance, struct list *list)
{
    any_bytes(chance, list->block, sizeof list->block);
    any_block(chance, list->block);
    list->events_len = list->answers_len = any_length(chance);
    list->block_len = BLOCK_SIZE;
    any_events(chance, list);
    if (one_in(chance, 8))
        spoil_length(chance, list);
}
