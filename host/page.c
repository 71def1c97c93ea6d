/* A trace as a page for a browser: see page.h. */
#include "page.h"

#include "done.h"
#include "listing.h"
#include "name.h"
#include "phrases.h"
#include "pomurica.h"
#include "record.h"
#include "shown.h"
#include "style.h"
#include "tell.h"
#include "timeline.h"

#include <inttypes.h>

/* Steps stand behind a wrong one as far as records with its own head do, whole, and Start counts them. */
static uint32_t count_recorded(const uint8_t *trace, size_t length, uint32_t judged)
{
    const uint32_t counted = pomurica_get_word(trace, POMURICA_RECORD_COUNT);
    const uint32_t head = pomurica_get_word(step_at(trace, judged - 1), POMURICA_RECORD_HEAD);
    uint32_t index = judged;

    while (index < counted && step_place(trace, index + 1) <= length &&
           pomurica_get_word(step_at(trace, index), POMURICA_RECORD_HEAD) == head)
        index++;
    return index;
}

/* Of a long trace the Steps around the wrong one are listed, or the last ones. */
static void choose_listed(struct shown *shown)
{
    const uint32_t behind = shown->recorded - shown->judged; /* the wrong Step; 0 where there is none */

    shown->last = behind > MOST_SINGLE / 2 ? shown->judged + MOST_SINGLE / 2 : shown->recorded;
    if (shown->last < MOST_SINGLE)
        shown->last = shown->recorded < MOST_SINGLE ? shown->recorded : MOST_SINGLE;
    shown->first = shown->last < MOST_SINGLE ? 0 : shown->last - MOST_SINGLE;
}

static struct shown look_at(const uint8_t *trace, size_t length, const uint8_t *explanation)
{
    struct shown shown = { .trace = trace, .explanation = explanation };

    shown.right = pomurica_get_word(explanation, POMURICA_EXPLANATION_STEPS);
    shown.done = count_done(trace, shown.right);
    shown.judged = shown.recorded = shown.right;
    if (pomurica_get_word(explanation, POMURICA_EXPLANATION_NUMBER) == POMURICA_WRONG_STEP) {
        shown.judged++;
        shown.recorded = count_recorded(trace, length, shown.judged);
    }
    choose_listed(&shown);
    return shown;
}

static bool is_accepted(const struct shown *shown)
{
    return pomurica_get_word(shown->explanation, POMURICA_EXPLANATION_NUMBER) == POMURICA_DONE;
}

/* What --explain says: the warning that goes with an accepted trace, and what is wrong with a refused one. */
static void write_explanation(FILE *out, size_t length, const struct shown *shown, const char *warning)
{
    if (warning != NULL)
        fprintf(out, "<p class=\"warning\">%s</p>\n", warning);
    if (is_accepted(shown))
        return;
    fputs("<pre>", out);
    tell_explanation(out, shown->trace, length, shown->explanation);
    fputs("</pre>\n", out);
}

/* The console's line, what --explain says under it, and the ways to a wrong Step. */
static void write_verdict(FILE *out, const char *name, size_t length, const struct shown *shown)
{
    const char *const warning = warning_of(shown->explanation, shown->done);

    fprintf(out, "<header class=\"%s%s\">\n<h1><bdi>", is_accepted(shown) ? "accepted" : "refused",
            warning != NULL ? " warned" : "");
    put_name_in_page(out, name);
    fputs("</bdi>: ", out);
    tell_verdict(out, shown->explanation, shown->done);
    fputs("</h1>\n", out);
    write_explanation(out, length, shown, warning);
    if (shown->right < shown->judged)
        fprintf(out,
                "<p>This Step <a href=\"#wrong\">in the timeline</a>, "
                "<a href=\"#s%" PRIu32 "\">in the list</a></p>\n",
                shown->judged);
    fputs("</header>\n", out);
}

void write_page(FILE *out, const char *name, const uint8_t *trace, size_t length, const uint8_t *explanation)
{
    const struct shown shown = look_at(trace, length, explanation);

    fputs("<!doctype html>\n<html lang=\"en\">\n<head>\n<meta charset=\"utf-8\">\n"
          "<meta http-equiv=\"Content-Security-Policy\" content=\"default-src 'none'; style-src 'unsafe-inline'\">\n"
          "<meta name=\"viewport\" content=\"width=device-width, initial-scale=1\">\n<title>", out);
    put_name_in_page(out, name);
    fputs(": ", out);
    tell_verdict(out, explanation, shown.done);
    fputs("</title>\n<style>\n", out);
    fputs(STYLE, out);
    fputs("</style>\n</head>\n<body>\n", out);
    write_verdict(out, name, length, &shown);
    draw_timeline(out, &shown);
    list_steps(out, &shown);
    fputs("</body>\n</html>\n", out);
}
