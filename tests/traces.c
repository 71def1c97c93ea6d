#include "traces.h"

#include "../second/records.h"
#include "../second/words.h"

#include <string.h>

const char *const DAMAGE_NAMES[DAMAGES] = {
    "honest", "cut", "answer, value or after-word changed", "other word changed",
    "one bit flipped", "wrong count", "wrong head", "trailing bytes", "rubbish", "both layouts", "any head",
};

/* Records by number: 0 is Start, 1 to n the Steps, n + 1 End. */
enum { THE_START = 0 };

/* An honest trace of n Steps that is to be damaged. */
struct made {
    uint8_t *bytes;
    size_t length;
    uint32_t n;
    bool old;
};

static enum layout layout_of(bool old)
{
    return old ? OLD_LAYOUT : NEW_LAYOUT;
}

/* The first word of a record. */
static uint32_t word_of(struct record head)
{
    return head.length | head.kind << 16;
}

static void put_head(uint8_t *record, struct record head)
{
    put_word(record, word_of(head));
}

/* One Step record: the event on the block, which moves on. */
static void record_step(enum layout layout, struct event event, uint8_t *step, uint8_t *block)
{
    put_head(step, STEP[layout]);
    put_word(step + STEP_CODE, event.code);
    put_word(step + STEP_A, event.a);
    put_word(step + STEP_B, event.b);
    second_step_in(layout, block, event.code, event.a, event.b, step + STEP_ANSWER);
    memcpy(step + STEP_BLOCK, block, BLOCK_LENGTH[layout]);
}

/* An event for the block as it stands. */
typedef struct event event_function(struct chance *, const uint8_t *);

static struct event any_check(struct chance *chance, const uint8_t *block)
{
    return event_of(chance, CODE_INTERRUPT_CHECK, block);
}

static size_t record_events(struct chance *chance, event_function *next, uint32_t n, uint8_t *trace)
{
    const enum layout layout = layout_of(chance->old);
    uint8_t block[BLOCK_SIZE];
    uint8_t *record = trace;

    any_block(chance, block);
    put_head(record, START[layout]);
    put_word(record + START_COUNT, n);
    memcpy(record + START_BLOCK, block, BLOCK_LENGTH[layout]);
    record += START[layout].length;
    for (uint32_t i = 0; i < n; i++, record += STEP[layout].length)
        record_step(layout, next(chance, block), record, block);
    put_head(record, END);
    put_word(record + END_COUNT, n);
    return (size_t)(record - trace) + END.length;
}

size_t record_trace(struct chance *chance, uint32_t n, uint8_t *trace)
{
    return record_events(chance, any_event, n, trace);
}

size_t record_either(struct chance *chance, uint32_t n, uint8_t *trace)
{
    size_t length;

    choose_layout(chance);
    length = record_trace(chance, n, trace);
    leave_layout(chance);
    return length;
}

size_t record_checks(struct chance *chance, uint32_t n, uint8_t *trace)
{
    return record_events(chance, any_check, n, trace);
}

static uint32_t place_of(const struct made *made, uint32_t record)
{
    return record_place(made->old, record);
}

static uint32_t size_of(const struct made *made, uint32_t record)
{
    return record == THE_START ? start_size(made->old) : record <= made->n ? step_size(made->old) : END_SIZE;
}

/* The record is at fault: every Step before it is right. */
static struct expected refused_at(const struct made *made, uint32_t number, uint32_t record)
{
    return (struct expected){ true, number, place_of(made, record), record == THE_START ? 0 : record - 1 };
}

static const struct expected UNKNOWN = { false, 0, 0, 0 };

/* Cut between two records, within a head, right behind one, within a body, or before the last byte. */
static struct expected cut(struct chance *chance, struct made *made)
{
    const uint32_t record = any_below(chance, made->n + 2);
    const uint32_t size = size_of(made, record);
    uint32_t kept;

    switch (any_below(chance, 5)) {
    case 0: kept = 0; break;
    case 1: kept = 1 + any_below(chance, HEAD_SIZE - 1); break;
    case 2: kept = HEAD_SIZE; break;
    case 3: kept = HEAD_SIZE + any_below(chance, size - HEAD_SIZE); break;
    default: kept = size - 1; break;
    }
    made->length = place_of(made, record) + kept;
    return refused_at(made, SHORT, record);
}

/* Another word in place of this one: often one that is near it. */
static void change_word(struct chance *chance, uint8_t *word)
{
    const uint32_t old = get_word(word);
    uint32_t other;

    switch (any_below(chance, 4)) {
    case 0: other = old + 1; break;
    case 1: other = old - 1; break;
    case 2: other = old ^ UINT32_C(1) << any_below(chance, 32); break;
    default: other = any_word(chance); break;
    }
    put_word(word, other != old ? other : ~old);
}

/* A word of what a Step says came of its event: that Step is then wrong, whatever follows. */
static struct expected change_outcome(struct chance *chance, struct made *made)
{
    const uint32_t words = (step_size(made->old) - STEP_ANSWER) / 4;
    const uint32_t step = 1 + any_below(chance, made->n);

    change_word(chance, made->bytes + place_of(made, step) + STEP_ANSWER + 4 * any_below(chance, words));
    return refused_at(made, WRONG_STEP, step);
}

/* A word of Start's body, of a Step's event, or of End's body. */
static struct expected change_other(struct chance *chance, struct made *made)
{
    const uint32_t record = any_below(chance, made->n + 2);
    const uint32_t size = record > 0 && record <= made->n ? STEP_ANSWER : size_of(made, record);
    const uint32_t words = (size - HEAD_SIZE) / 4;

    change_word(chance, made->bytes + place_of(made, record) + HEAD_SIZE + 4 * any_below(chance, words));
    return UNKNOWN;
}

static struct expected flip_bit(struct chance *chance, struct made *made)
{
    made->bytes[any_below(chance, (uint32_t)made->length)] ^= (uint8_t)(1u << any_below(chance, 8));
    return UNKNOWN;
}

/* Start says too few (a Step comes where End is due), too many (End comes early) or over 65,535; or End differs. */
static struct expected change_count(struct chance *chance, struct made *made)
{
    uint8_t *start_count = made->bytes + START_COUNT;
    uint8_t *end_count = made->bytes + made->length - END_SIZE + END_COUNT;

    switch (any_below(chance, 4)) {
    case 0:
        put_word(start_count, any_below(chance, made->n));
        return refused_at(made, BAD_RECORD, get_word(start_count) + 1);
    case 1:
        put_word(start_count, made->n + 1 + any_below(chance, MOST_STEPS - made->n));
        return refused_at(made, BAD_RECORD, made->n + 1);
    case 2:
        put_word(start_count, one_in(chance, 2) ? MOST_STEPS + 1 : any_word(chance) | 1u << 31);
        return refused_at(made, BAD_COUNT, 0);
    default:
        change_word(chance, end_count);
        return refused_at(made, BAD_COUNT, made->n + 1);
    }
}

/* A head that is not the one due: of another record of the layout, or of none; its record may be cut too. */
static struct expected change_head(struct chance *chance, struct made *made)
{
    const struct record heads[] = { START[layout_of(made->old)], STEP[layout_of(made->old)], END };
    const uint32_t record = any_below(chance, made->n + 2);
    uint8_t *head = made->bytes + place_of(made, record);
    const uint32_t due = get_word(head);
    const uint32_t other = any_below(chance, 3);

    if (one_in(chance, 2))
        put_head(head, heads[other]);
    if (get_word(head) == due)
        change_word(chance, head);
    if (one_in(chance, 4))
        made->length = place_of(made, record) + HEAD_SIZE + any_below(chance, size_of(made, record) - HEAD_SIZE);
    return refused_at(made, BAD_RECORD, record);
}

/* A few bytes behind the End, a second End, or the whole once more. */
static struct expected add_bytes(struct chance *chance, struct made *made)
{
    const struct expected expected = { true, TRAILING, (uint32_t)made->length, made->n };
    uint8_t *behind = made->bytes + made->length;
    size_t more;

    switch (any_below(chance, 3)) {
    case 0:
        more = 1 + any_below(chance, start_size(made->old));
        any_bytes(chance, behind, more);
        break;
    case 1:
        more = END_SIZE;
        memcpy(behind, behind - END_SIZE, more);
        break;
    default:
        more = made->length;
        memcpy(behind, made->bytes, more);
        break;
    }
    made->length += more;
    return expected;
}

/* Any bytes, none, or a right beginning with any bytes behind it. */
static struct expected rubbish(struct chance *chance, struct made *made)
{
    size_t kept = any_below(chance, (uint32_t)made->length);
    const size_t length = any_below(chance, 600);

    if (one_in(chance, 2))
        kept = 0;
    if (one_in(chance, 2))
        any_bytes(chance, made->bytes + kept, length);
    else
        memset(made->bytes + kept, 0, length);
    made->length = kept + length;
    return UNKNOWN;
}

static struct expected leave(struct chance *chance, struct made *made)
{
    (void)chance;
    return (struct expected){ true, DONE, (uint32_t)made->length, made->n };
}

static struct record other_head(const struct made *made, uint32_t record)
{
    const enum layout other = layout_of(!made->old);

    return record == THE_START ? START[other] : STEP[other];
}

/* A record once more, as it is; gives its length. */
static uint32_t copy_record(const struct made *made, uint32_t record, uint8_t *to)
{
    memcpy(to, made->bytes + place_of(made, record), size_of(made, record));
    return size_of(made, record);
}

/* A Start or a Step once more, in the other layout: its block has no HDCR there, or any. */
static uint32_t turn_record(struct chance *chance, const struct made *made, uint32_t record, uint8_t *to)
{
    const struct record head = other_head(made, record);
    const uint32_t length = copy_record(made, record, to);

    put_head(to, head);
    if (length < head.length)
        put_word(to + length, any_word(chance));
    return head.length;
}

/* The Start alone is of the other layout, or a Step alone, or all Steps from one on. */
static struct expected mix(struct chance *chance, struct made *made)
{
    static uint8_t mixed[MADE_SIZE];
    const uint32_t first = one_in(chance, 3) ? THE_START : 1 + any_below(chance, made->n);
    const uint32_t last = first == THE_START || one_in(chance, 2) ? first : made->n;

    made->length = 0;
    for (uint32_t record = THE_START; record <= made->n + 1; record++) {
        uint8_t *const to = mixed + made->length;
        const bool turned = record >= first && record <= last;

        made->length += turned ? turn_record(chance, made, record, to) : copy_record(made, record, to);
    }
    memcpy(made->bytes, mixed, made->length);
    if (first == THE_START)
        return (struct expected){ true, BAD_RECORD, start_size(!made->old), 0 };
    return refused_at(made, BAD_RECORD, first);
}

/* A length and a kind of any record of both layouts; a Start of the other layout has no record behind it. */
static struct expected put_any_head(struct chance *chance, struct made *made)
{
    static const uint32_t LENGTHS[] = { OLD_START_SIZE, OLD_STEP_SIZE, END_SIZE, START_SIZE, STEP_SIZE };
    const uint32_t kinds = sizeof LENGTHS / sizeof LENGTHS[0];
    const uint32_t record = any_below(chance, made->n + 2);
    uint8_t *head = made->bytes + place_of(made, record);
    const uint32_t due = get_word(head);

    put_head(head, (struct record){ LENGTHS[any_below(chance, kinds)], 1 + any_below(chance, kinds) });
    if (get_word(head) == due)
        return leave(chance, made);
    if (record == THE_START && get_word(head) == word_of(other_head(made, record)))
        return (struct expected){ true, BAD_RECORD, start_size(!made->old), 0 };
    return refused_at(made, BAD_RECORD, record);
}

size_t make_trace(struct chance *chance, enum damage damage, uint8_t *trace,
                  struct expected *expected)
{
    static struct expected (*const DO[DAMAGES])(struct chance *, struct made *) = {
        [HONEST] = leave,
        [CUT] = cut,
        [WRONG_WORD] = change_outcome,
        [OTHER_WORD] = change_other,
        [WRONG_BIT] = flip_bit,
        [WRONG_COUNT] = change_count,
        [WRONG_HEAD] = change_head,
        [TOO_MUCH] = add_bytes,
        [RUBBISH] = rubbish,
        [BOTH_LAYOUTS] = mix,
        [ANY_HEAD] = put_any_head,
    };
    /* What changes a Step, or takes one away, needs one. */
    const uint32_t least = damage == WRONG_WORD || damage == WRONG_COUNT || damage == BOTH_LAYOUTS ? 1 : 0;
    struct made made = { trace, 0, least + any_below(chance, MADE_STEPS + 1 - least), chance->old };

    made.length = record_trace(chance, made.n, trace);
    *expected = DO[damage](chance, &made);
    return made.length;
}

size_t make_either(struct chance *chance, enum damage damage, uint8_t *trace,
                   struct expected *expected)
{
    size_t length;

    choose_layout(chance);
    length = make_trace(chance, damage, trace, expected);
    leave_layout(chance);
    return length;
}
