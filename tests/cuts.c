#include "cuts.h"

#include "numbers.h"

#include <string.h>

#define COUNT(list) (sizeof(list) / sizeof((list)[0]))

/* ----------------------------------------------------------------- Runs */

enum manner any_manner(struct chance *chance)
{
    if (one_in(chance, 16)) /* hundreds of runs: seldom */
        return BY_FEW;
    return BY_RECORDS + (enum manner)any_below(chance, MANNERS - BY_RECORDS);
}

/* A number beside this one, or itself. */
static uint32_t beside(struct chance *chance, uint32_t number)
{
    return number + any_below(chance, 3) - 1;
}

static size_t any_length(struct chance *chance, enum manner manner, size_t left)
{
    static const size_t FEW[] = { 0, 1, 3, 4, 5 };
    static const uint32_t RECORDS[] = {
        START_SIZE, STEP_SIZE, STEP_SIZE, 2 * STEP_SIZE, OLD_START_SIZE, OLD_STEP_SIZE, 2 * OLD_STEP_SIZE, END_SIZE
    };

    switch (manner) {
    case BY_FEW: return FEW[any_below(chance, COUNT(FEW))];
    case BY_RECORDS: return beside(chance, RECORDS[any_below(chance, COUNT(RECORDS))]);
    case BY_ANY: return any_below(chance, (uint32_t)left + 1);
    case AT_ONCE: return left;
    default: return any_length(chance, (enum manner)any_below(chance, AT_ONCE), left);
    }
}

size_t any_run(struct chance *chance, enum manner manner, size_t left)
{
    const size_t length = any_length(chance, manner, left);

    return length < left ? length : left;
}

/* ------------------------------------------------------------- Sessions */

/* A word at or near one of the ends of its range. */
static uint32_t near_end(struct chance *chance)
{
    switch (any_below(chance, 4)) {
    case 0: return any_below(chance, STEP_SIZE);
    case 1: return POMURICA_MOST_STEPS - 2 + any_below(chance, 4);
    case 2: return any_word(chance);
    default: return 0u - any_below(chance, 2 * STEP_SIZE);
    }
}

/* What marks a session as closed, or as faulty: mostly a number that there is, or the next. */
static uint32_t any_mark(struct chance *chance)
{
    return one_in(chance, 4) ? near_end(chance) : any_below(chance, LAST_NUMBER + 2);
}

/* As many bytes as a head, a record or nothing has, or about as many. */
static uint32_t any_held(struct chance *chance)
{
    static const uint32_t SIZES[] = { 0, HEAD_SIZE, END_SIZE, START_SIZE, STEP_SIZE, OLD_START_SIZE, OLD_STEP_SIZE };

    return one_in(chance, 16) ? any_word(chance) : beside(chance, SIZES[any_below(chance, COUNT(SIZES))]);
}

/* A session that waits for one of the records of an honest trace, and holds some of it; gives how many bytes it has had. */
static size_t go_on(struct chance *chance, const uint8_t *trace, uint32_t n, struct pomurica_session *words)
{
    const bool old = is_old(trace);
    const uint32_t record = any_below(chance, n + 2), place = record_place(old, record);
    const uint32_t size = record == 0 ? start_size(old) : record <= n ? step_size(old) : END_SIZE;
    const uint32_t held = any_held(chance);

    memset(words, 0, sizeof *words);
    words->held = held < size ? held : any_below(chance, size);
    words->place = place;
    memcpy(words->unfinished, trace + place, words->held);
    if (record != 0) {
        words->stage = old ? POMURICA_STAGE_OLD_NEXT : POMURICA_STAGE_NEXT;
        words->count = n;
        words->steps = record - 1;
        memcpy(words->block, trace + place - block_size(old), block_size(old));
    }
    return place + words->held;
}

/* The same Steps found behind any number of others, and at any place.  The End, which is last, has their sum. */
static void move_counts(struct chance *chance, struct unopened *unopened)
{
    const uint32_t before = near_end(chance);
    uint8_t *const end = unopened->bytes + unopened->length - END_SIZE;

    if (one_in(chance, 2))
        unopened->words.place = near_end(chance);
    if (unopened->words.stage == POMURICA_STAGE_START || unopened->length < END_SIZE || one_in(chance, 2))
        return;
    unopened->words.steps += before;
    unopened->words.count += before;
    pomurica_put_word(end, POMURICA_RECORD_COUNT, pomurica_get_word(end, POMURICA_RECORD_COUNT) + before);
}

static void flip(struct chance *chance, uint8_t *bytes, size_t length)
{
    bytes[any_below(chance, (uint32_t)length)] ^= (uint8_t)(1u << any_below(chance, 8));
}

/* Changes what a session counts and where it is. */
static void spoil_numbers(struct chance *chance, struct pomurica_session *words)
{
    switch (any_below(chance, 6)) {
    case 0: words->stage = any_below(chance, POMURICA_STAGE_OVER + 2); break;
    case 1: words->stage = any_word(chance); break;
    case 2: words->count = beside(chance, words->steps); break;
    case 3: words->steps = beside(chance, words->count); break;
    case 4: words->held = any_held(chance); break;
    default: words->place = near_end(chance); break;
    }
}

/* Changes the bytes behind those that a trace of the old layout uses. */
static void spoil_behind(struct chance *chance, struct pomurica_session *words)
{
    const size_t block = POMURICA_OLD_BLOCK_SIZE, record = POMURICA_OLD_STEP_SIZE;

    any_bytes(chance, words->block + block, sizeof words->block - block);
    any_bytes(chance, words->unfinished + record, sizeof words->unfinished - record);
}

/* Changes what a session keeps, or bytes that it is fed. */
static void spoil_bytes(struct chance *chance, struct unopened *unopened)
{
    struct pomurica_session *const words = &unopened->words;
    const uint32_t held = words->held < sizeof words->unfinished ? words->held : 0;

    switch (any_below(chance, 7)) {
    case 0: any_bytes(chance, words->unfinished + held, sizeof words->unfinished - held); break; /* where nothing is yet */
    case 1: any_bytes(chance, words->unfinished, sizeof words->unfinished); break;
    case 2: flip(chance, words->unfinished, held != 0 ? held : 1); break;
    case 3: flip(chance, words->unfinished, HEAD_SIZE); break;
    case 4: flip(chance, words->block, sizeof words->block); break;
    case 5: spoil_behind(chance, words); break;
    default: flip(chance, unopened->bytes, unopened->length); break;
    }
}

/* A byte behind the End, or more. */
static void add_bytes(struct chance *chance, struct unopened *unopened)
{
    const uint32_t more = 1 + any_below(chance, END_SIZE);

    any_bytes(chance, unopened->bytes + unopened->length, more);
    unopened->length += more;
}

void any_unopened(struct chance *chance, struct unopened *unopened)
{
    static uint8_t trace[MADE_SIZE];
    const uint32_t n = any_below(chance, 5);
    const size_t length = record_either(chance, n, trace);
    const size_t had = go_on(chance, trace, n, &unopened->words);

    unopened->length = length - had;
    memcpy(unopened->bytes, trace + had, unopened->length);
    move_counts(chance, unopened);
    while (one_in(chance, 2))
        spoil_numbers(chance, &unopened->words);
    while (one_in(chance, 2))
        spoil_bytes(chance, unopened);
    if (one_in(chance, 16))
        unopened->words.fault = any_mark(chance);
    if (one_in(chance, 16))
        unopened->words.closed = any_mark(chance);
    if (one_in(chance, 4))
        add_bytes(chance, unopened);
}
