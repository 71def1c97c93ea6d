/* The modes of a trace by Step, as pictures: see timeline.h. */
#include "timeline.h"

#include "columns.h"
#include "count.h"
#include "picture.h"
#include "pomurica.h"
#include "record.h"

#include <inttypes.h>

static void tell_columns(FILE *out, const struct spread *spread)
{
    if (is_single(spread))
        fputs("<p>A column is one Step, with a bar in the mode that it was in.</p>\n", out);
    else
        fprintf(out,
                "<p>A column is %" PRIu32 " Steps. The height of a bar is the share of them that were in the mode, "
                "or were entries, returns or refusals; a single one still shows.</p>\n",
                spread->per_column);
}

/* The style of the legend and of the rows, more than their own, where several Steps share a column. */
static const char *shared_style(const struct spread *spread)
{
    return is_single(spread) ? "" : " shared";
}

/* One sign of the legend; the caller ends the item. */
static void begin_sign(FILE *out, const char *shape)
{
    fprintf(out, "<li><svg viewBox=\"0 0 16 14\" aria-hidden=\"true\">%s</svg> ", shape);
}

/* A sign with how many of the right Steps it stands for. */
static void tell_counted(FILE *out, const char *shape, const char *what, uint32_t count)
{
    begin_sign(out, shape);
    fprintf(out, "%s: ", what);
    put_count(out, count);
    fputs("</li>\n", out);
}

static void tell_signs(FILE *out, const struct shown *shown, const struct spread *spread)
{
    fprintf(out, "<ul class=\"legend%s\">\n", shared_style(spread));
    tell_counted(out, is_single(spread) ? "<path class=\"entry\" d=\"M8 3l4 8h-8z\"/>"
                                        : "<path class=\"entry\" d=\"M5 1h6v12h-6z\"/>",
                 "entries, which took an exception", count_right(shown, OUTCOME_ENTRY));
    tell_counted(out, is_single(spread) ? "<path class=\"return\" d=\"M8 11l4-8h-8z\"/>"
                                        : "<path class=\"return\" d=\"M5 1h6v12h-6z\"/>",
                 "returns, legal or not", count_right(shown, OUTCOME_RETURN));
    tell_counted(out, is_single(spread) ? "<path class=\"refusal\" d=\"M5 4l6 6m0-6l-6 6\"/>"
                                        : "<path class=\"refusal\" d=\"M5 1h6v12h-6z\"/>",
                 "refusals, by the rules", count_right(shown, OUTCOME_REFUSED));
    if (shown->right < shown->judged) {
        begin_sign(out, "<rect class=\"wrong\" x=\"4\" y=\"1\" width=\"8\" height=\"12\"/>");
        fputs("the first bad Step</li>\n", out);
    }
    if (shown->judged < shown->recorded) {
        begin_sign(out, "<path class=\"guest pale\" d=\"M0 2h16v10h-16z\"/>");
        fputs("recorded behind it, not judged</li>\n", out);
    }
    begin_sign(out, "<rect class=\"guest end\" x=\"2\" y=\"2\" width=\"12\" height=\"10\"/>");
    fputs("the mode at the end</li>\n</ul>\n", out);
}

static void draw_rows(FILE *out, const struct shown *shown, const struct spread *spread)
{
    struct row row;

    fprintf(out, "<div class=\"rows%s\">\n", shared_style(spread));
    begin_rows(&row, shown, spread);
    draw_picture(out, &row);
    while (!is_last_row(&row)) {
        count_next_row(&row);
        draw_picture(out, &row);
    }
    fputs("</div>\n", out);
}

void draw_timeline(FILE *out, const struct shown *shown)
{
    fputs("<section class=\"timeline\">\n<h2>Modes by Step</h2>\n", out);
    if (pomurica_get_word(shown->explanation, POMURICA_EXPLANATION_PLACE) == 0) {
        fputs("<p>There is nothing to draw: the Start itself is refused.</p>\n", out);
    } else {
        const struct spread spread = choose_spread(shown);

        tell_columns(out, &spread);
        tell_signs(out, shown, &spread);
        draw_rows(out, shown, &spread);
    }
    fputs("</section>\n", out);
}
