#include "fuzz.h"

#include "chance.h"

#include "../host/layout.h"
#include "../host/record.h"

#include <stdlib.h>

static void *room_for(size_t size)
{
    void *const room = malloc(size);

    if (room == NULL && size != 0)
        abort();
    return room;
}

struct input parts_of(const uint8_t *data, size_t size)
{
    struct input input = { 0, data, data, 0, 0 };
    const uint8_t *zero;

    if (size == 0)
        return input;
    input.tens = data[0];
    input.name = data + 1;
    zero = size == 1 ? NULL : memchr(input.name, 0, size - 1);
    input.trace = zero == NULL ? data + size : zero + 1;
    input.name_length = (size_t)((zero == NULL ? data + size : zero) - input.name);
    input.length = (size_t)(data + size - input.trace);
    return input;
}

char *take_name(const struct input *input)
{
    char *const name = room_for(input->name_length + 1);

    memcpy(name, input->name, input->name_length);
    name[input->name_length] = '\0';
    return name;
}

void record_step(const struct layout *layout, uint8_t *step, uint32_t code, uint32_t a, uint32_t b)
{
    struct due due;

    pomurica_put_word(step, POMURICA_RECORD_HEAD, layout->step_size | layout->step_kind << 16);
    pomurica_put_word(step, POMURICA_STEP_CODE, code);
    pomurica_put_word(step, POMURICA_STEP_A, a);
    pomurica_put_word(step, POMURICA_STEP_B, b);
    find_due(step, &due);
    memcpy(step + 4 * POMURICA_STEP_NUMBER, due.answer, sizeof due.answer);
    memcpy(step + 4 * POMURICA_STEP_BLOCK, due.block, layout->block_size);
}

/* Steps from mode to mode, as bytes of the trace choose them, and back: the last one leaves the block before the first. */
static void record_more(const struct input *input, const struct layout *layout, uint8_t *step, uint32_t more)
{
    const uint32_t cpsr = pomurica_get_word(step - layout->block_size, POMURICA_PLACE_CPSR);

    for (uint32_t i = 1; i < more; i++, step += layout->step_size)
        record_step(layout, step, POMURICA_EVENT_NOTE, POMURICA_PLACE_CPSR,
                    (cpsr & ~POMURICA_CPSR_MODE) | MODES[input->trace[i % input->length] % MODE_COUNT]);
    record_step(layout, step, POMURICA_EVENT_NOTE, POMURICA_PLACE_CPSR, cpsr);
}

/* A count above the most is left as it is. */
static void count_more(uint8_t *record, uint32_t more)
{
    const uint32_t count = pomurica_get_word(record, POMURICA_RECORD_COUNT);

    if (count <= POMURICA_MOST_STEPS)
        pomurica_put_word(record, POMURICA_RECORD_COUNT, count + more);
}

/* The layout of the bytes, by the kind that they open with, if they do. */
static const struct layout *layout_of_input(const struct input *input)
{
    return input->length < sizeof(uint32_t) ? old_layout() : layout_of(input->trace);
}

/* The bytes as they are, or the Start, the Steps to be put before the others, and the rest. */
uint8_t *take_trace(const struct input *input, size_t *length)
{
    const struct layout *const layout = layout_of_input(input);
    const size_t start = layout->start_size;
    const uint32_t more = input->length < start + POMURICA_END_SIZE ? 0 : 10 * input->tens;
    const size_t added = (size_t)more * layout->step_size;
    uint8_t *trace;

    *length = input->length + added;
    trace = room_for(*length);
    if (more == 0) {
        memcpy(trace, input->trace, input->length);
        return trace;
    }
    memcpy(trace, input->trace, start);
    record_more(input, layout, trace + start, more);
    memcpy(trace + start + added, input->trace + start, input->length - start);
    count_more(trace, more);
    count_more(trace + *length - POMURICA_END_SIZE, more);
    return trace;
}
