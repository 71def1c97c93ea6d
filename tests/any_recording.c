#include "any_recording.h"

#include "events.h"

#include <string.h>

/* More than any buffer, and nothing by its lower half. */
static size_t any_high_bit(struct chance *chance)
{
    return (size_t)1 << (32 + any_below(chance, 32));
}

/* Where a trace of so many bytes is to go: it fits, with and without bytes before it and behind it. */
static void any_fit(struct chance *chance, struct recording *asked, size_t size)
{
    asked->offset = one_in(chance, 3) ? 0 : 1 + any_below(chance, MOST_AROUND);
    asked->buffer_len = asked->offset + size + (one_in(chance, 3) ? 0 : 1 + any_below(chance, MOST_AROUND));
}

/* It does not fit: a buffer too short by one byte, by any, or by all; an offset at its end, past it, or far past it. */
static void any_misfit(struct chance *chance, struct recording *asked, size_t size)
{
    const size_t before = any_below(chance, 2) * any_below(chance, MOST_AROUND);

    asked->offset = before;
    asked->buffer_len = before + any_below(chance, (uint32_t)size);
    switch (any_below(chance, 9)) {
    case 0:
    case 1:
        asked->buffer_len = before + size - 1;
        break;
    case 2:
        asked->offset = asked->buffer_len;
        break;
    case 3:
        asked->offset = asked->buffer_len + 1;
        break;
    case 4:
        asked->offset = asked->buffer_len + any_below(chance, 2 * (uint32_t)size);
        break;
    case 5: /* offset and size together wrap to what the buffer has */
        asked->buffer_len = before + size;
        asked->offset = 0 - size + any_below(chance, (uint32_t)size);
        break;
    case 6: /* the lower half of the offset fits */
        asked->buffer_len = before + size;
        asked->offset = before + any_high_bit(chance);
        break;
    case 7:
        asked->buffer_len = 0;
        break;
    default:
        break;
    }
}

static void any_place(struct chance *chance, struct recording *asked, size_t size)
{
    if (one_in(chance, 3))
        any_misfit(chance, asked, size);
    else
        any_fit(chance, asked, size);
    asked->guards_behind = one_in(chance, 2) ? 0 : any_below(chance, GUARD_SIZE + 1);
}

/* Events that are never recorded, since there is no room for so many. */
static void ask_for_many(struct chance *chance, struct recording *asked)
{
    static struct pomurica_event many[EVENTS_MOST];

    asked->events = many;
    asked->events_len = POMURICA_MOST_STEPS - 1 + any_below(chance, EVENTS_MOST - POMURICA_MOST_STEPS + 2);
    if (one_in(chance, 4))
        asked->block_len = any_below(chance, 2 * POMURICA_BLOCK_SIZE + 1);
    any_place(chance, asked, POMURICA_TRACE_SIZE(any_below(chance, 3)));
}

void any_recording(struct chance *chance, struct recording *asked)
{
    static struct list list;

    any_list(chance, &list);
    memcpy(asked->block, list.block, sizeof asked->block);
    asked->block_len = list.block_len;
    asked->events = list.events;
    asked->events_len = list.events_len;
    if (one_in(chance, 32))
        ask_for_many(chance, asked);
    else
        any_place(chance, asked, POMURICA_TRACE_SIZE(list.events_len));
}

void any_long_recording(struct chance *chance, size_t count, size_t offset, struct recording *asked)
{
    static struct pomurica_event events[EVENTS_MOST];

    good_block(chance, asked->block);
    for (size_t i = 0; i < count; i++) {
        const struct event event = any_event(chance, asked->block);

        events[i] = (struct pomurica_event){ event.code, event.a, event.b };
    }
    asked->events = events;
    asked->events_len = count;
    asked->block_len = POMURICA_BLOCK_SIZE;
    asked->offset = offset;
    asked->buffer_len = offset + POMURICA_TRACE_SIZE(count);
    asked->guards_behind = 0;
}
