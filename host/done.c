/* How many Steps of a trace were done: see done.h. */
#include "done.h"

#include "layout.h"
#include "pomurica.h"
#include "record.h"

#include <stdbool.h>

/* The bytes of a word, and where an answer number begins in a Step. */
enum { WORD_SIZE = 4, NUMBER_PLACE = WORD_SIZE * POMURICA_STEP_NUMBER };

void begin_done(struct done *done)
{
    *done = (struct done){ .layout = NULL };
}

/* A word is there whole; from its last byte it is so far to the next. */
static void take_word(struct done *done)
{
    if (done->layout == NULL) {
        done->layout = layout_of_head(done->word);
        done->before = done->layout->start_size + NUMBER_PLACE - WORD_SIZE;
    } else {
        done->steps += done->word == POMURICA_DONE;
        done->before = done->layout->step_size - WORD_SIZE;
    }
    done->word = done->held = 0;
}

static void take_byte(struct done *done, uint8_t byte)
{
    done->word |= (uint32_t)byte << 8 * done->held;
    if (++done->held == WORD_SIZE)
        take_word(done);
}

/* Whether an answer number begins here, and is there whole. */
static bool is_number(const struct done *done, size_t length)
{
    return done->layout != NULL && done->held == 0 && length >= WORD_SIZE;
}

/* Takes this number and those of the Steps behind it that are there whole: nearly all.  Gives up to where. */
static size_t take_numbers(struct done *done, const uint8_t *bytes, size_t length)
{
    const size_t step_size = done->layout->step_size;
    uint32_t steps = 0;
    size_t at;

    for (at = 0; at + WORD_SIZE <= length; at += step_size)
        steps += pomurica_get_word(bytes + at, 0) == POMURICA_DONE;
    done->steps += steps;
    done->before = step_size - WORD_SIZE;
    return at - done->before;
}

/* The End has too few bytes to look like a Step with an answer number. */
void count_done_in(struct done *done, const uint8_t *bytes, size_t length)
{
    while (length > done->before) {
        size_t taken = 1;

        bytes += done->before;
        length -= done->before;
        done->before = 0;
        if (is_number(done, length))
            taken = take_numbers(done, bytes, length);
        else
            take_byte(done, *bytes);
        bytes += taken;
        length -= taken;
    }
    done->before -= length;
}

uint32_t count_done(const uint8_t *trace, uint32_t steps)
{
    struct done done;

    begin_done(&done);
    if (steps > 0)
        count_done_in(&done, trace, step_place(trace, steps));
    return done.steps;
}
