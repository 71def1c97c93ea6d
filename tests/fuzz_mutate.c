/*
 * Makes another input of one.  Bytes changed blindly are almost always a wrong
 * first record; so a trace is read as what happened, a start block and events,
 * changed as that, and recorded anew by the step.  Then it may be damaged.
 */
#include "fuzz.h"

#include "chance.h"
#include "traces.h"

#include "../host/layout.h"
#include "../host/record.h"

#include <stdbool.h>

/* The fuzzer's own: bytes changed blindly, in place, to at most so many; gives how many. */
size_t LLVMFuzzerMutate(uint8_t *bytes, size_t size, size_t most);

#define COUNT_OF(array) (sizeof(array) / sizeof *(array))

enum { MOST_NAME = 64, MOST_EVENTS = 64 };

/* What happened, and in which layout it is told; in the old one HDCR is 0. */
struct story {
    const struct layout *layout;
    uint8_t block[POMURICA_BLOCK_SIZE];
    struct event events[MOST_EVENTS];
    uint32_t count;
};

/* An input under way. */
struct draft {
    uint8_t tens;
    uint8_t name[MOST_NAME];
    size_t name_length;
    uint8_t trace[MADE_SIZE + MOST_EVENTS * POMURICA_STEP_SIZE];
    size_t length, most; /* of the trace */
};

/* What means something in a page, begins or ends a character, or turns the direction of writing. */
static const char *const PIECES[] = {
    "<", ">", "&", "\"", "'", "</title>", "</bdi>", "<script>", "&lt;", "&#60;", "\n", "\x7F", "\x1B[31m",
    "\xC2", "\xC2\x85", "\xC3\xA9", "\xE2\x82", "\xE2\x82\xAC", "\xE2\x80\xAE", "\xED\xA0\x80", "\xEF\xBF\xBF",
    "\xF0\x9F\x98\x80", "\xF4\x90\x80\x80", "\xF8", "\xFF", "\xC0\xBC",
};

static size_t smaller(size_t one, size_t other)
{
    return one < other ? one : other;
}

/* Words at which something ends or begins: operands, places, cells, parts of a value, counts. */
static const uint32_t LIMITS[] = {
    0, 1, 2, 3, 4, 5, 7, 8, 9, 13, 14, 16, 31, 32, 43, 44, 45, 63, 64, POMURICA_HDCR_TDE, 0x60000, 0x70000,
    POMURICA_MOST_STEPS, POMURICA_MOST_STEPS + 1, UINT32_MAX,
};

/* A word that is near the one that was, at a limit, or any. */
static uint32_t other_word(struct chance *chance, uint32_t word)
{
    switch (any_below(chance, 4)) {
    case 0: return word ^ UINT32_C(1) << any_below(chance, 32);
    case 1: return word + 1;
    case 2: return LIMITS[any_below(chance, COUNT_OF(LIMITS))];
    default: return any_word(chance);
    }
}

/* From whatever bytes: a start block, where they have one, and an event of each whole record behind it. */
static void read_story(struct chance *chance, const struct draft *draft, struct story *story)
{
    const struct layout *const layout = draft->length < sizeof(uint32_t) ? old_layout() : layout_of(draft->trace);

    story->layout = layout;
    story->count = 0;
    memset(story->block, 0, sizeof story->block);
    if (draft->length < layout->start_size) {
        any_block(chance, story->block);
        return;
    }
    memcpy(story->block, draft->trace + layout->start_size - layout->block_size, layout->block_size);
    while (story->count < MOST_EVENTS && step_place(draft->trace, story->count + 1) <= draft->length) {
        const uint8_t *const step = step_at(draft->trace, story->count);

        story->events[story->count++] = (struct event){
            pomurica_get_word(step, POMURICA_STEP_CODE), pomurica_get_word(step, POMURICA_STEP_A),
            pomurica_get_word(step, POMURICA_STEP_B),
        };
    }
}

/* The honest trace of a story, as far as there is room. */
static void write_story(const struct story *story, struct draft *draft)
{
    const struct layout *const layout = story->layout;
    const size_t room = draft->most - layout->start_size - POMURICA_END_SIZE;
    const uint32_t count = (uint32_t)smaller(story->count, room / layout->step_size);
    uint8_t *at = draft->trace + layout->start_size;

    pomurica_put_word(draft->trace, POMURICA_RECORD_HEAD, layout->start_size | layout->start_kind << 16);
    pomurica_put_word(draft->trace, POMURICA_RECORD_COUNT, count);
    memcpy(at - layout->block_size, story->block, layout->block_size);
    for (uint32_t i = 0; i < count; i++, at += layout->step_size)
        record_step(layout, at, story->events[i].code, story->events[i].a, story->events[i].b);
    pomurica_put_word(at, POMURICA_RECORD_HEAD, POMURICA_END_HEAD);
    pomurica_put_word(at, POMURICA_RECORD_COUNT, count);
    draft->length = (size_t)(at - draft->trace) + POMURICA_END_SIZE;
}

static void change_block(struct chance *chance, uint8_t *block)
{
    const uint32_t place = one_in(chance, 2) ? POMURICA_PLACE_CPSR + any_below(chance, 4) : any_below(chance, POMURICA_PLACES);

    if (one_in(chance, 4))
        any_block(chance, block);
    else
        pomurica_put_word(block, place, other_word(chance, pomurica_get_word(block, place)));
}

static void change_event(struct chance *chance, const struct story *story, struct event *event)
{
    switch (any_below(chance, 4)) {
    case 0: event->a = other_word(chance, event->a); break;
    case 1: event->b = other_word(chance, event->b); break;
    case 2: event->code = other_word(chance, event->code); break;
    default: *event = any_event(chance, story->block); break;
    }
}

/* An event more at a place, one less, or another. */
static void change_story(struct chance *chance, struct story *story)
{
    const uint32_t at = any_below(chance, story->count + 1);
    struct event *const event = story->events + at;
    const size_t behind = (story->count - at) * sizeof *event;

    if (one_in(chance, 4)) {
        change_block(chance, story->block);
    } else if (story->count < MOST_EVENTS && (at == story->count || one_in(chance, 2))) {
        memmove(event + 1, event, behind);
        *event = any_event(chance, story->block);
        story->count++;
    } else if (at < story->count && one_in(chance, 3)) {
        memmove(event, event + 1, behind - sizeof *event);
        story->count--;
    } else if (at < story->count) {
        change_event(chance, story, event);
    }
}

/* A word somewhere, or one of those before the block of a Step: a head, an event, an answer. */
static uint8_t *any_place(struct chance *chance, struct draft *draft)
{
    const uint32_t step = any_below(chance, (uint32_t)draft->length / POMURICA_STEP_SIZE + 1);
    const uint32_t place = step_place(draft->trace, step) + 4 * any_below(chance, POMURICA_STEP_BLOCK);

    if (one_in(chance, 2) && place + 4 <= draft->length)
        return draft->trace + place;
    return draft->trace + 4 * any_below(chance, (uint32_t)draft->length / 4);
}

/* A few words changed, so that what stands before them stays right. */
static void change_words(struct chance *chance, struct draft *draft)
{
    if (draft->length < 4)
        return;
    do {
        uint8_t *const word = any_place(chance, draft);

        pomurica_put_word(word, 0, other_word(chance, pomurica_get_word(word, 0)));
    } while (one_in(chance, 2));
}

static void damage(struct chance *chance, struct draft *draft)
{
    switch (any_below(chance, 4)) {
    case 0:
        draft->length = any_below(chance, (uint32_t)draft->length + 1);
        break;
    case 1:
        draft->length = LLVMFuzzerMutate(draft->trace, draft->length, draft->most);
        break;
    default:
        change_words(chance, draft);
        break;
    }
}

static void change_trace(struct chance *chance, struct draft *draft)
{
    struct story story;

    read_story(chance, draft, &story);
    if (one_in(chance, 32))
        story.layout = story.layout->old ? new_layout() : old_layout();
    do
        change_story(chance, &story);
    while (one_in(chance, 2));
    write_story(&story, draft);
    if (one_in(chance, 2))
        damage(chance, draft);
}

/* A trace that has nothing of the one before. */
static void replace_trace(struct chance *chance, struct draft *draft)
{
    struct expected expected;

    draft->length = make_either(chance, (enum damage)any_below(chance, DAMAGES), draft->trace, &expected);
    draft->length = smaller(draft->length, draft->most);
}

/* A piece in the place of a part of the name, or blindly; a zero would end it. */
static void change_name(struct chance *chance, struct draft *draft)
{
    const char *const piece = PIECES[any_below(chance, COUNT_OF(PIECES))];
    const size_t at = any_below(chance, (uint32_t)draft->name_length + 1), length = smaller(strlen(piece), MOST_NAME - at);

    if (one_in(chance, 3)) {
        draft->name_length = LLVMFuzzerMutate(draft->name, draft->name_length, MOST_NAME);
        return;
    }
    memcpy(draft->name + at, piece, length);
    if (draft->name_length < at + length || one_in(chance, 4))
        draft->name_length = at + length;
}

/* A few rows of single Steps, or about as many as are shown one by one: 2,000.  They are slow, and so rare. */
static void change_tens(struct chance *chance, struct draft *draft)
{
    draft->tens = (uint8_t)(one_in(chance, 2) ? any_below(chance, 32) : 192 + any_below(chance, 64));
}

static void read_draft(struct chance *chance, const struct input *input, size_t most, struct draft *draft)
{
    draft->tens = one_in(chance, 8) ? (uint8_t)input->tens : 0;
    draft->name_length = smaller(input->name_length, MOST_NAME);
    memcpy(draft->name, input->name, draft->name_length);
    draft->most = smaller(most - 2 - MOST_NAME, sizeof draft->trace);
    draft->length = smaller(input->length, draft->most);
    memcpy(draft->trace, input->trace, draft->length);
}

static size_t write_draft(const struct draft *draft, uint8_t *data)
{
    uint8_t *at = data;

    *at++ = draft->tens;
    memcpy(at, draft->name, draft->name_length);
    at += draft->name_length;
    *at++ = 0;
    memcpy(at, draft->trace, draft->length);
    return (size_t)(at - data) + draft->length;
}

size_t LLVMFuzzerCustomMutator(uint8_t *data, size_t size, size_t most, unsigned int seed)
{
    static struct draft draft;
    const struct input input = parts_of(data, size);
    struct chance chance = { .seed = seed };

    if (most < 2 + MOST_NAME + POMURICA_START_SIZE + POMURICA_END_SIZE)
        return LLVMFuzzerMutate(data, size, most);
    read_draft(&chance, &input, most, &draft);
    switch (any_below(&chance, 32)) {
    case 0: change_tens(&chance, &draft); break;
    case 1: replace_trace(&chance, &draft); break;
    case 2: case 3: case 4: change_name(&chance, &draft); break;
    case 5: case 6: case 7: case 8: damage(&chance, &draft); break;
    default: change_trace(&chance, &draft); break;
    }
    return write_draft(&draft, data);
}
