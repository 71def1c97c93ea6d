/* A trace in words for a person: see tell.h. */
#include "tell.h"

#include "done.h"
#include "layout.h"
#include "phrases.h"
#include "pomurica.h"
#include "record.h"
#include "status.h"

#include <inttypes.h>

/* The bytes of a record's first word. */
enum { HEAD_SIZE = 4 };

static void tell_difference(FILE *out, uint32_t part, uint32_t due, uint32_t found)
{
    if (due == found)
        return;
    fprintf(out, "    %s 0x%08" PRIX32 " due, 0x%08" PRIX32 " found", part_name(part), due, found);
    if (is_status(part)) {
        fputs(": ", out);
        tell_fields(out, found, "due", due);
    }
    fputc('\n', out);
}

/* The words that differ: the first as it was explained, then those behind it. */
static void tell_differences(FILE *out, const uint8_t *step, const struct due *due, const uint8_t *explanation)
{
    const uint32_t places = layout_of(step)->places;
    uint32_t part = pomurica_get_word(explanation, POMURICA_EXPLANATION_PART);

    tell_difference(out, part, pomurica_get_word(explanation, POMURICA_EXPLANATION_DUE),
                    pomurica_get_word(explanation, POMURICA_EXPLANATION_FOUND));
    for (part++; part < POMURICA_PART_BLOCK; part++)
        tell_difference(out, part, pomurica_get_word(due->answer, part - POMURICA_PART_NUMBER),
                        pomurica_get_word(step, POMURICA_STEP_NUMBER + part - POMURICA_PART_NUMBER));
    for (uint32_t place = part - POMURICA_PART_BLOCK; place < places; place++)
        tell_difference(out, POMURICA_PART_BLOCK + place, pomurica_get_word(due->block, place),
                        pomurica_get_word(block_after(step), place));
}

/* A wrong Step: its event, the state it was in, what the rules give, and every word that differs. */
static void tell_wrong_step(FILE *out, const uint8_t *trace, const uint8_t *explanation)
{
    const uint32_t place = pomurica_get_word(explanation, POMURICA_EXPLANATION_PLACE);
    const uint8_t *const step = trace + place;
    struct due due;

    find_due(step, &due);
    fprintf(out, "  Step %" PRIu32 " at byte %" PRIu32 ": ",
            pomurica_get_word(explanation, POMURICA_EXPLANATION_STEPS) + 1, place);
    tell_event(out, step);
    fputs("\n  it was in ", out);
    tell_state(out, block_before(step));
    fputs("\n  the rules give: ", out);
    tell_outcome(out, step, pomurica_get_word(due.answer, POMURICA_ANSWER_NUMBER),
                 pomurica_get_word(due.answer, POMURICA_ANSWER_VALUE));
    fputc('\n', out);
    tell_differences(out, step, &due, explanation);
}

/* A record that is due: its name, size and kind. */
struct record {
    const char *name;
    uint32_t size, kind;
};

/* The record due at a place of a trace: Start at first, then as many Steps as Start counts, then End. */
static struct record record_due(const uint8_t *trace, uint32_t place, uint32_t steps)
{
    const struct layout *const layout = layout_of(trace);

    if (place == 0)
        return (struct record){ "the Start", layout->start_size, layout->start_kind };
    if (steps < pomurica_get_word(trace, POMURICA_RECORD_COUNT))
        return (struct record){ "a Step", layout->step_size, layout->step_kind };
    return (struct record){ "the End", POMURICA_END_SIZE, POMURICA_KIND_END };
}

/* Whether the bytes open with the kind of a Start, which tells its layout. */
static bool opens_with_start(const uint8_t *trace, size_t length)
{
    return length >= HEAD_SIZE &&
           kind_in(pomurica_get_word(trace, POMURICA_RECORD_HEAD)) == layout_of(trace)->start_kind;
}

static void tell_short(FILE *out, const uint8_t *trace, size_t length, const uint8_t *explanation)
{
    const uint32_t place = pomurica_get_word(explanation, POMURICA_EXPLANATION_PLACE);
    const size_t left = length - place;

    if (opens_with_start(trace, length)) {
        const struct record due =
            record_due(trace, place, pomurica_get_word(explanation, POMURICA_EXPLANATION_STEPS));

        fprintf(out, "  %s of %" PRIu32 " bytes was due; only %zu are there\n", due.name, due.size, left);
    } else {
        fprintf(out, "  the Start of %d bytes was due, or of %d in the old layout; only %zu are there\n",
                POMURICA_START_SIZE, POMURICA_OLD_START_SIZE, left);
    }
}

/* Whether a head is that of a Step. */
static bool is_of_step(uint32_t head)
{
    const struct layout *const layout = layout_of_head(head);

    return size_in(head) == layout->step_size && kind_in(head) == layout->step_kind;
}

/* What is there in place of the record due; behind the Start it may be a Step of the other layout. */
static void tell_found(FILE *out, const uint8_t *trace, uint32_t place)
{
    const uint32_t head = pomurica_get_word(trace + place, POMURICA_RECORD_HEAD);
    const bool old = layout_of_head(head)->old;

    fprintf(out, "length %" PRIu32 " and kind %" PRIu32 " are there", size_in(head), kind_in(head));
    if (place > 0 && is_of_step(head) && old != layout_of(trace)->old)
        fputs(old ? ", a Step of the old layout behind a Start of the new one"
                  : ", a Step of the new layout behind a Start of the old one", out);
    fputc('\n', out);
}

static void tell_bad_record(FILE *out, const uint8_t *trace, size_t length, const uint8_t *explanation)
{
    const uint32_t place = pomurica_get_word(explanation, POMURICA_EXPLANATION_PLACE);

    if (opens_with_start(trace, length)) {
        const struct record due =
            record_due(trace, place, pomurica_get_word(explanation, POMURICA_EXPLANATION_STEPS));

        fprintf(out, "  %s was due, of length %" PRIu32 " and kind %" PRIu32 "; ", due.name, due.size, due.kind);
    } else {
        fprintf(out, "  the Start was due, of length %d and kind %d, or of %d and %d in the old layout; ",
                POMURICA_START_SIZE, POMURICA_KIND_START, POMURICA_OLD_START_SIZE, POMURICA_OLD_KIND_START);
    }
    tell_found(out, trace, place);
}

static void tell_bad_count(FILE *out, const uint8_t *trace, uint32_t place)
{
    const uint32_t counted = pomurica_get_word(trace, POMURICA_RECORD_COUNT);

    if (place == 0)
        fprintf(out, "  the Start counts %" PRIu32 " Steps; there may be %d\n", counted, POMURICA_MOST_STEPS);
    else
        fprintf(out, "  the Start counts %" PRIu32 " Steps, the End %" PRIu32 "\n", counted,
                pomurica_get_word(trace + place, POMURICA_RECORD_COUNT));
}

static void tell_warning(FILE *out, const uint8_t *trace, const uint8_t *explanation)
{
    const uint32_t steps = pomurica_get_word(explanation, POMURICA_EXPLANATION_STEPS);
    const char *const warning = warning_of(explanation, count_done(trace, steps));

    if (warning != NULL)
        fprintf(out, "  %s\n", warning);
}

void tell_explanation(FILE *out, const uint8_t *trace, size_t length, const uint8_t *explanation)
{
    const uint32_t number = pomurica_get_word(explanation, POMURICA_EXPLANATION_NUMBER);

    switch (number) {
    case POMURICA_DONE:
        tell_warning(out, trace, explanation);
        break;
    case POMURICA_SHORT:
        tell_short(out, trace, length, explanation);
        break;
    case POMURICA_BAD_RECORD:
        tell_bad_record(out, trace, length, explanation);
        break;
    case POMURICA_BAD_COUNT:
        tell_bad_count(out, trace, pomurica_get_word(explanation, POMURICA_EXPLANATION_PLACE));
        break;
    case POMURICA_WRONG_STEP:
        tell_wrong_step(out, trace, explanation);
        break;
    case POMURICA_TRAILING:
        fputs("  the trace was whole, and more bytes follow its End\n", out);
        break;
    default:
        break;
    }
}

void tell_step(FILE *out, const uint8_t *step)
{
    struct due due;

    find_due(step, &due);
    tell_event(out, step);
    fputs("; ", out);
    tell_state(out, block_before(step));
    fputs("; ", out);
    tell_outcome(out, step, pomurica_get_word(due.answer, POMURICA_ANSWER_NUMBER),
                 pomurica_get_word(due.answer, POMURICA_ANSWER_VALUE));
}

/* A Step of a trace on a line, without its end. */
static void tell_step_of(FILE *out, const uint8_t *trace, uint32_t index)
{
    fprintf(out, "  Step %" PRIu32 " at byte %" PRIu32 ": ", index + 1, step_place(trace, index));
    tell_step(out, step_at(trace, index));
}

void tell_steps(FILE *out, const uint8_t *trace, const uint8_t *explanation)
{
    const uint32_t steps = pomurica_get_word(explanation, POMURICA_EXPLANATION_STEPS);
    uint32_t index;

    for (index = 0; index < steps; index++) {
        tell_step_of(out, trace, index);
        fputc('\n', out);
    }
    if (pomurica_get_word(explanation, POMURICA_EXPLANATION_NUMBER) == POMURICA_WRONG_STEP) {
        tell_step_of(out, trace, index);
        fputs(": WRONG\n", out);
    }
}
