#include "any_session.h"

#include "numbers.h"

#include "../second/second.h"
#include "../second/words.h"

enum {
    MOST_STEPS = 65535,
    FEW = 10,      /* bytes: a head, and a whole End, end within so many */
    KIND_PLACE = 2 /* the byte of a record that has its kind, which is a small number */
};

/* A number beside this one, or itself. */
static uint32_t about(struct chance *chance, uint32_t number)
{
    return number + any_below(chance, 3) - 1;
}

size_t any_arriving(struct chance *chance, enum damage damage, uint8_t *trace)
{
    struct expected expected;
    const size_t length = make_either(chance, damage, trace, &expected);

    if (one_in(chance, 16))
        put_word(trace + START_COUNT, about(chance, MOST_STEPS));
    return length;
}

/* Where the next record begins behind a byte of a trace. */
static size_t next_record(bool old, size_t at)
{
    const size_t start = start_size(old), step = step_size(old);

    return at < start ? start : at - (at - start) % step + step;
}

size_t any_cut(struct chance *chance, const uint8_t *trace, size_t at, size_t length)
{
    const bool old = is_taken_for_old(trace, length);
    size_t cut;

    switch (any_below(chance, 8)) {
    case 0: cut = at; break;
    case 1: cut = length; break;
    case 2: cut = at + any_below(chance, 2 * STEP_SIZE); break;
    case 3:
    case 4: cut = at + any_below(chance, FEW); break;
    default: cut = next_record(old, at) - 1 + any_below(chance, FEW); break;
    }
    return cut < length ? cut : length;
}

size_t any_session(struct chance *chance, const uint8_t *trace, size_t length, struct pomurica_session *session)
{
    const uint32_t records = one_in(chance, 4) ? 0 : any_below(chance, (uint32_t)(length / STEP_SIZE) + 1);
    const size_t fed = any_cut(chance, trace, records * STEP_SIZE, length);

    second_open(session);
    second_feed(session, trace, fed);
    return fed;
}

/* As many bytes as a head or a record has, or about as many. */
static uint32_t any_held(struct chance *chance)
{
    static const uint32_t SIZES[] = { HEAD_SIZE, START_SIZE, STEP_SIZE, END_SIZE, OLD_START_SIZE, OLD_STEP_SIZE };

    return about(chance, SIZES[any_below(chance, sizeof SIZES / sizeof SIZES[0])]);
}

/* A small number, or any. */
static uint32_t any_small(struct chance *chance, uint32_t limit)
{
    return one_in(chance, 4) ? any_word(chance) : any_below(chance, limit);
}

/* A bit of the record that is held, or of the room behind it; half the time of its head. */
static void spoil_record(struct chance *chance, uint8_t *record)
{
    const uint32_t size = one_in(chance, 2) ? HEAD_SIZE : STEP_SIZE;

    record[any_below(chance, size)] ^= (uint8_t)(1u << any_below(chance, 8));
}

/* The bytes of the block behind those that a trace of the old layout uses. */
static void spoil_behind(struct chance *chance, struct pomurica_session *session)
{
    const size_t used = POMURICA_OLD_BLOCK_SIZE;

    any_bytes(chance, session->block + used, sizeof session->block - used);
}

/* It waits for the last bytes of a Start, of either layout or of none. */
static void spoil_start(struct chance *chance, struct pomurica_session *session)
{
    session->stage = POMURICA_STAGE_START;
    session->held = OLD_START_SIZE - 1 + any_below(chance, START_SIZE - OLD_START_SIZE + 2);
    session->unfinished[KIND_PLACE] = (uint8_t)any_below(chance, 2 * POMURICA_KIND_START);
}

static void spoil_one(struct chance *chance, struct pomurica_session *session)
{
    switch (any_below(chance, 13)) {
    case 0: session->stage = any_small(chance, POMURICA_STAGE_OVER + 2); break;
    case 1: session->count = about(chance, session->steps); break;
    case 2: session->steps = about(chance, session->count); break;
    case 3: session->place = 0u - any_below(chance, 2 * STEP_SIZE); break; /* it will wrap */
    case 4: session->held = any_held(chance); break;
    case 5: session->held = any_word(chance); break;
    case 6: session->fault = any_small(chance, LAST_NUMBER + 2); break;
    case 7: session->closed = any_small(chance, 3); break;
    case 8: spoil_record(chance, session->unfinished); break;
    case 9: session->stage = POMURICA_STAGE_OLD_NEXT + any_below(chance, 2); break; /* perhaps in the other layout */
    case 10: spoil_behind(chance, session); break;
    case 11: spoil_start(chance, session); break;
    default: any_block(chance, session->block); break;
    }
}

void spoil_session(struct chance *chance, struct pomurica_session *session)
{
    for (uint32_t left = 1 + any_below(chance, 3); left > 0; left--)
        spoil_one(chance, session);
}
