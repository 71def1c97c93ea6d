/* The Steps of a trace, each opening to its changed words: see listing.h. */
#include "listing.h"

#include "count.h"
#include "layout.h"
#include "phrases.h"
#include "pomurica.h"
#include "record.h"
#include "status.h"

#include <inttypes.h>

static void put_word(FILE *out, uint32_t word)
{
    fprintf(out, "<td>0x%08" PRIX32 "</td>", word);
}

/* The words that a Step changed, as its record has them. */
static void list_changes(FILE *out, const uint8_t *step)
{
    const uint32_t places = layout_of(step)->places;
    uint32_t changes = 0;

    for (uint32_t place = 0; place < places; place++) {
        const uint32_t before = pomurica_get_word(block_before(step), place);
        const uint32_t after = pomurica_get_word(block_after(step), place);

        if (before == after)
            continue;
        if (changes++ == 0)
            fputs("<table><tr><th>word</th><th>before</th><th>after</th></tr>\n", out);
        fprintf(out, "<tr><th>%s</th>", register_name(place));
        put_word(out, before);
        put_word(out, after);
        fputs("</tr>\n", out);
    }
    fputs(changes == 0 ? "<p>No word changed.</p>" : "</table>", out);
}

/* The fields of CPSR that a Step changed, if any. */
static void list_fields(FILE *out, const uint8_t *step)
{
    const uint32_t before = pomurica_get_word(block_before(step), POMURICA_PLACE_CPSR);
    const uint32_t after = pomurica_get_word(block_after(step), POMURICA_PLACE_CPSR);

    if (before == after)
        return;
    fputs("<p>CPSR: ", out);
    tell_fields(out, after, "was", before);
    fputs("</p>", out);
}

/* One word of a wrong Step: what was due, what was found, and before them what stood there. */
static void list_due(FILE *out, uint32_t part, const char *before, uint32_t due, uint32_t found)
{
    fprintf(out, "<tr%s><th>%s</th><td>%s</td>", due == found ? "" : " class=\"differs\"", part_name(part), before);
    put_word(out, due);
    put_word(out, found);
    fputs(due == found ? "<td>" : "<td>differs", out);
    if (due != found && is_status(part)) {
        fputs(": ", out);
        tell_fields(out, found, "due", due);
    }
    fputs("</td></tr>\n", out);
}

/* The words of a wrong Step: its answer, and each place that was to change or did. */
static void list_dues(FILE *out, const uint8_t *step, const struct due *due)
{
    const uint32_t places = layout_of(step)->places;
    char text[sizeof "0x00000000"];

    fputs("<table><tr><th>word</th><th>before</th><th>due</th><th>found</th><td></td></tr>\n", out);
    for (uint32_t i = 0; i < POMURICA_ANSWER_SIZE / 4; i++)
        list_due(out, POMURICA_PART_NUMBER + i, "", pomurica_get_word(due->answer, i),
                 pomurica_get_word(step, POMURICA_STEP_NUMBER + i));
    for (uint32_t place = 0; place < places; place++) {
        const uint32_t before = pomurica_get_word(block_before(step), place);
        const uint32_t given = pomurica_get_word(due->block, place);
        const uint32_t found = pomurica_get_word(block_after(step), place);

        if (before == given && before == found)
            continue;
        snprintf(text, sizeof text, "0x%08" PRIX32, before);
        list_due(out, POMURICA_PART_BLOCK + place, text, given, found);
    }
    fputs("</table>", out);
}

/* The words of a Step's event, which its line tells by their names. */
static void list_event(FILE *out, const uint8_t *step)
{
    fputs("<p>", out);
    tell_event_words(out, step);
    fputs("</p>\n", out);
}

/* What a Step's line begins with: its number and place, its event, and the state that it met. */
static void begin_line(FILE *out, const struct shown *shown, uint32_t index)
{
    const uint8_t *const step = step_at(shown->trace, index);

    fprintf(out, "<summary><span>%" PRIu32 "</span><span>%" PRIu32 "</span><span>", index + 1,
            step_place(shown->trace, index));
    tell_event(out, step);
    fputs("</span><span>", out);
    tell_state(out, block_before(step));
    fputs("</span>", out);
}

static void list_wrong_step(FILE *out, const struct shown *shown, uint32_t index)
{
    const uint8_t *const step = step_at(shown->trace, index);
    struct due due;

    find_due(step, &due);
    fprintf(out, "<details id=\"s%" PRIu32 "\" class=\"wrong\" open>", index + 1);
    begin_line(out, shown, index);
    fputs("<span><b>WRONG</b>; the rules give: ", out);
    tell_outcome(out, step, pomurica_get_word(due.answer, POMURICA_ANSWER_NUMBER),
                 pomurica_get_word(due.answer, POMURICA_ANSWER_VALUE));
    fputs("</span></summary>", out);
    list_event(out, step);
    list_dues(out, step, &due);
    fputs("</details>\n", out);
}

/* The style of an outcome; the mark in front of it comes with the style. */
static const char *outcome_style(enum outcome outcome)
{
    switch (outcome) {
    case OUTCOME_ENTRY: return " class=\"entry\"";
    case OUTCOME_RETURN: return " class=\"return\"";
    case OUTCOME_REFUSED: return " class=\"refusal\"";
    default: return "";
    }
}

/* A Step as its record has it: a right one has what the rules give. */
static void list_step(FILE *out, const struct shown *shown, uint32_t index)
{
    const uint8_t *const step = step_at(shown->trace, index);
    const uint32_t code = pomurica_get_word(step, POMURICA_STEP_CODE);
    const uint32_t number = pomurica_get_word(step, POMURICA_STEP_NUMBER);
    const uint32_t value = pomurica_get_word(step, POMURICA_STEP_VALUE);

    fprintf(out, "<details id=\"s%" PRIu32 "\"%s>", index + 1, index < shown->judged ? "" : " class=\"pale\"");
    begin_line(out, shown, index);
    fprintf(out, "<span%s>", outcome_style(outcome_of(code, number, value)));
    tell_outcome(out, step, number, value);
    fputs("</span></summary>", out);
    list_event(out, step);
    list_changes(out, step);
    list_fields(out, step);
    fputs("</details>\n", out);
}

/* Says which Steps are not listed, if any. */
static void tell_left_out(FILE *out, uint32_t first, uint32_t last)
{
    if (first == last)
        return;
    fputs(last - first == 1 ? "<p class=\"left-out\">Step " : "<p class=\"left-out\">Steps ", out);
    put_count(out, first + 1);
    if (last - first > 1) {
        fputs(" to ", out);
        put_count(out, last);
    }
    fputs(last - first == 1 ? " is not listed.</p>\n" : " are not listed.</p>\n", out);
}

static void list_all(FILE *out, const struct shown *shown)
{
    fputs("<div class=\"head\"><span>Step</span><span>at byte</span><span>event</span><span>it was in</span>"
          "<span>outcome</span></div>\n", out);
    for (uint32_t index = shown->first; index < shown->last; index++) {
        if (index > 0 && is_wrong(shown, index - 1))
            fputs("<p class=\"left-out\">Behind the wrong Step nothing was judged. "
                  "What follows is as it was recorded.</p>\n", out);
        if (is_wrong(shown, index))
            list_wrong_step(out, shown, index);
        else
            list_step(out, shown, index);
    }
}

void list_steps(FILE *out, const struct shown *shown)
{
    fputs("<section class=\"steps\">\n<h2>Steps</h2>\n", out);
    if (shown->recorded == 0)
        fputs("<p>There is no Step to list.</p>\n", out);
    else
        fputs("<p>A Step opens to the words that it changed.</p>\n", out);
    tell_left_out(out, 0, shown->first);
    if (shown->first < shown->last)
        list_all(out, shown);
    tell_left_out(out, shown->last, shown->recorded);
    fputs("</section>\n", out);
}
