/*
 * The explanation of a wrong Step, called from C, in both layouts: each part of
 * each Step of an honest trace changed, two parts changed, traces damaged
 * otherwise, and every length of the explanation from 0 to 210.
 */
#include "edge.h"
#include "group.h"
#include "pomurica.h"
#include "traces.h"

#include <string.h>

enum {
    STEPS = 20,
    MOST_LENGTH = POMURICA_START_SIZE + STEPS * POMURICA_STEP_SIZE + POMURICA_END_SIZE,
    FIRST_PART = 4, /* words of a Step before its parts */
    DAMAGED = 2000, /* traces of each kind of damage */
    GUARD = 0xA5
};

/* The last part of a Step of a layout: only the new one has HDCR. */
static uint32_t last_part(bool old)
{
    return POMURICA_PART_BLOCK + (old ? POMURICA_PLACE_MVBAR : POMURICA_PLACE_HDCR);
}

static size_t length_of(bool old)
{
    return record_place(old, STEPS + 1) + POMURICA_END_SIZE;
}

/* The words of an explanation. */
struct told {
    uint32_t returned, number, place, steps, part, found, due;
};

static struct told explain(const uint8_t *trace, size_t length)
{
    uint8_t words[POMURICA_EXPLANATION_SIZE];
    struct told told;

    memset(words, GUARD, sizeof words);
    told.returned = pomurica_explain(lend_at_edge(trace, length), length, words, sizeof words);
    told.number = pomurica_get_word(words, 0);
    told.place = pomurica_get_word(words, 1);
    told.steps = pomurica_get_word(words, 2);
    told.part = pomurica_get_word(words, 3);
    told.found = pomurica_get_word(words, 4);
    told.due = pomurica_get_word(words, 5);
    return told;
}

static uint8_t *part_of(uint8_t *trace, uint32_t step, uint32_t part)
{
    return trace + record_place(is_old(trace), step + 1) + 4 * (FIRST_PART + part - 1);
}

/* Changes a part of a Step, and gives what it was. */
static uint32_t change(uint8_t *trace, uint32_t step, uint32_t part, uint32_t bits)
{
    uint8_t *word = part_of(trace, step, part);
    const uint32_t was = pomurica_get_word(word, 0);

    pomurica_put_word(word, 0, was ^ bits);
    return was;
}

static void check_told(const struct told *told, bool old, uint32_t step, uint32_t part, uint32_t found, uint32_t due)
{
    check(told->returned == POMURICA_WRONG_STEP && told->number == told->returned &&
              told->place == record_place(old, step + 1) && told->steps == step &&
              told->part == part && told->found == found && told->due == due,
          "Step %u, part %u: told %u at %u after %u, part %u, found %x, due %x", (unsigned)step,
          (unsigned)part, (unsigned)told->number, (unsigned)told->place, (unsigned)told->steps,
          (unsigned)told->part, (unsigned)told->found, (unsigned)told->due);
}

/* Every part of every Step changed, with (more) or without another change behind it. */
static void parts_changed(const uint8_t *honest, bool more)
{
    static uint8_t trace[MOST_LENGTH];
    const bool old = is_old(honest);

    for (uint32_t step = 0; step < STEPS; step++)
        for (uint32_t part = POMURICA_PART_NUMBER; part <= last_part(old) - (more ? 1 : 0); part++) {
            const uint32_t bits = UINT32_C(1) << (step + part) % 32;
            uint32_t due;
            struct told told;

            memcpy(trace, honest, length_of(old));
            due = change(trace, step, part, bits);
            if (more)
                change(trace, step, last_part(old), 1);
            told = explain(trace, length_of(old));
            check_told(&told, old, step, part, due ^ bits, due);
        }
}

/* The first three words are the checker's, and the others are 0 but for a wrong Step. */
static void damaged(struct chance *chance, enum damage damage)
{
    static uint8_t trace[MADE_SIZE];
    struct expected expected;

    for (int i = 0; i < DAMAGED; i++) {
        const size_t length = make_either(chance, damage, trace, &expected);
        uint8_t report[POMURICA_REPORT_SIZE];
        const uint32_t number = pomurica_check(trace, length, report, sizeof report);
        const struct told told = explain(trace, length);
        const bool is_part = told.part >= POMURICA_PART_NUMBER && told.part <= last_part(is_old(trace));

        check(told.returned == number && told.number == number &&
                  told.place == pomurica_get_word(report, 1) && told.steps == pomurica_get_word(report, 2),
              "%s: not the checker's report", DAMAGE_NAMES[damage]);
        check(number == POMURICA_WRONG_STEP ? is_part && told.found != told.due
                                            : (told.part | told.found | told.due) == 0,
              "%s: part %u of %u", DAMAGE_NAMES[damage], (unsigned)told.part, (unsigned)number);
    }
}

/* A wrong length is BAD_SIZE and writes nothing; the right one writes its 24 bytes alone. */
static void lengths(const uint8_t *honest)
{
    uint8_t room[1 + LONGEST_TRIED + 1], guards[sizeof room];

    memset(guards, GUARD, sizeof guards);
    for (size_t length = 0; length <= LONGEST_TRIED; length++) {
        const bool is_right = length == POMURICA_EXPLANATION_SIZE;
        const size_t written = is_right ? length : 0;
        uint32_t number;

        memset(room, GUARD, sizeof room);
        number = pomurica_explain(honest, length_of(is_old(honest)), room + 1, length);
        check(number == (is_right ? POMURICA_DONE : POMURICA_BAD_SIZE) && room[0] == GUARD &&
                  memcmp(room + 1 + written, guards, sizeof room - 1 - written) == 0,
              "length %u", (unsigned)length);
    }
}

/* What is told of a trace of one layout. */
static void explain_in(bool old)
{
    static uint8_t honest[MOST_LENGTH];
    struct chance chance = { .seed = 7, .old = old };

    record_trace(&chance, STEPS, honest);
    group_of(layout_name(old), "each part of each Step changed");
    parts_changed(honest, false);
    group_of(layout_name(old), "two parts changed: the first is told");
    parts_changed(honest, true);
    group_of(layout_name(old), "every length of the explanation from 0 to 210");
    lengths(honest);
}

int main(void)
{
    struct chance chance = { .seed = 8 };

    open_edge(MADE_SIZE);
    explain_in(false);
    explain_in(true);
    for (int damage = HONEST; damage < DAMAGES; damage++) {
        group(DAMAGE_NAMES[damage]);
        damaged(&chance, (enum damage)damage);
    }
    return summary();
}
