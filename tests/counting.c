#include "counting.h"

#include "../second/words.h"

/* Steps of a short trace, at most. */
#define FEW 4

/* A count that the Steps of one trace may just fill, or not. */
static uint32_t almost_full(struct chance *chance)
{
    return UINT32_MAX - any_below(chance, 4);
}

/* What the counts of one set have in common; nothing, if they are any. */
enum kind {
    NO_COUNTS, ALL_FULL, ALL_ALMOST_FULL, SOME_ALMOST_FULL, ANY_COUNTS,
    KINDS
};

/* A count of such a set; of any, one of any number of digits, or none. */
static uint32_t any_count(struct chance *chance, enum kind kind)
{
    if (kind == NO_COUNTS)
        return 0;
    if (kind == ALL_FULL)
        return UINT32_MAX;
    if (kind == ALL_ALMOST_FULL)
        return almost_full(chance);
    if (kind == SOME_ALMOST_FULL && one_in(chance, 16))
        return almost_full(chance);
    return one_in(chance, 4) ? 0 : any_word(chance) >> any_below(chance, 32);
}

void any_counts(struct chance *chance, uint8_t *counts)
{
    const enum kind kind = (enum kind)any_below(chance, KINDS);

    any_bytes(chance, counts, LENT_MOST);
    for (uint32_t i = 0; i < COUNTS_SIZE; i += 4)
        put_word(counts + i, any_count(chance, kind));
}

/* Short, of Steps from a block of chance and not from where entries lead in the end. */
static size_t any_short_trace(struct chance *chance, uint8_t *trace)
{
    const uint32_t n = any_below(chance, FEW + 1);
    size_t length;

    choose_layout(chance);
    length = one_in(chance, 2) ? record_trace(chance, n, trace) : record_checks(chance, n, trace);
    leave_layout(chance);
    return length;
}

size_t any_counted_trace(struct chance *chance, uint8_t *trace, struct expected *expected)
{
    if (one_in(chance, 2))
        return make_either(chance, (enum damage)any_below(chance, DAMAGES), trace, expected);
    *expected = (struct expected){ .known = true, .number = DONE };
    return any_short_trace(chance, trace);
}

static size_t any_size(struct chance *chance, uint32_t size)
{
    return one_in(chance, 64) ? any_below(chance, 2 * size + 1) : size;
}

size_t any_counts_size(struct chance *chance)
{
    return any_size(chance, COUNTS_SIZE);
}

struct sizes any_sizes(struct chance *chance, enum room room, size_t length)
{
    switch (room) {
    case ENOUGH:
        return (struct sizes){ COUNTS_SIZE, LINES_SIZE, ANSWER_SIZE };
    case JUST_ENOUGH:
        return (struct sizes){ COUNTS_SIZE, length, ANSWER_SIZE };
    case TOO_LITTLE:
        return (struct sizes){ COUNTS_SIZE, length > 0 ? length - 1 : 0, ANSWER_SIZE };
    default:
        return (struct sizes){ any_size(chance, COUNTS_SIZE), any_below(chance, LENT_MOST), any_size(chance, ANSWER_SIZE) };
    }
}

void call_count(count_function *count, const uint8_t *trace, size_t length,
                const uint8_t *counts, size_t counts_len, struct counted *counted)
{
    uint8_t *lent = lend(&counted->counts, counts, counts_len, length % (MOST_SHIFT + 1));

    counted->number = count(trace, length, lent, counts_len);
    counted->guards_kept = take_back(&counted->counts);
}

void call_lines(lines_function *lines, const uint8_t *counts, struct sizes sizes, struct listed *listed)
{
    static const uint8_t OLD[LENT_MOST] = { 1, 2, 3, 4, 5, 6, 7, 8, 9, 10, 11, 12 };
    const size_t shift = sizes.lines % (MOST_SHIFT + 1);
    const uint8_t *lent_counts = lend(&listed->counts, counts, sizes.counts, shift);
    uint8_t *lent_lines = lend(&listed->lines, OLD, sizes.lines, shift / 2);
    uint8_t *answer = lend(&listed->answer, OLD, sizes.answer, shift / 4);

    listed->number = lines(lent_counts, sizes.counts, lent_lines, sizes.lines, answer, sizes.answer);
    listed->guards_kept = take_back(&listed->counts);
    listed->guards_kept = take_back(&listed->lines) && listed->guards_kept;
    listed->guards_kept = take_back(&listed->answer) && listed->guards_kept;
}

const char *count_difference(const struct counted *one, const struct counted *other)
{
    if (one->number != other->number)
        return "the numbers differ";
    if (!are_same(&one->counts, &other->counts))
        return "the counts differ";
    return one->guards_kept && other->guards_kept ? NULL : "a guard byte changed";
}

const char *lines_difference(const struct listed *one, const struct listed *other)
{
    if (one->number != other->number)
        return "the numbers of the lines differ";
    if (!are_same(&one->lines, &other->lines))
        return "the lines differ";
    if (!are_same(&one->answer, &other->answer))
        return "the answers differ";
    if (!is_unchanged(&one->counts) || !is_unchanged(&other->counts))
        return "the counts changed";
    return one->guards_kept && other->guards_kept ? NULL : "a guard byte changed";
}
