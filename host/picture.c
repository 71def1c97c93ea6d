/* A row of a timeline, as a picture: see picture.h. */
#include "picture.h"

#include "count.h"
#include "phrases.h"
#include "pomurica.h"
#include "record.h"

#include <inttypes.h>
#include <string.h>

/* Below the lanes there is a strip for each kind of Step that is marked. */
enum { STRIPS = SERIES - ENTRIES };

static const char *const LANE_NAMES[LANES] = { "Monitor", "Hyp", "guest", "Secure", "no mode" };
static const char *const STRIP_NAMES[STRIPS] = { "entries", "returns", "refusals" };

static const char *const STYLES[SERIES] = {
    "monitor", "hyp", "guest", "secure", "none",
    "monitor pale", "hyp pale", "guest pale", "secure pale", "none pale",
    "entry", "return", "refusal",
};

/* Widths and heights, in pixels of a page that is not zoomed. */
enum {
    LEFT = 72,      /* for the names of the lanes */
    FIELD = 1000,   /* for the columns */
    RIGHT = 48,     /* for what comes behind the last column */
    WIDTH = LEFT + FIELD + RIGHT,
    FLAG = 22,      /* above the lanes, where a flag stands */
    LANE_GAP = 2,
    AXIS = 20,      /* for the numbers of Steps, and for their events each */
    LETTER = 7,     /* about the width of a letter in a bar */
    SMALL_LETTER = 6,
    WIDEST = 106,   /* a column at most */
    NAMING = 80,    /* a column that has room for the name of an event */
    NUMBERING = 24  /* a column that has room for its Step's number */
};

/* A bar in each lane of a column, the strips below the lanes, and an axis below the strips. */
struct picture {
    const struct row *row;
    unsigned width;       /* of a column */
    unsigned end_width;   /* of the bar of the mode after the last Step */
    unsigned lane, strip; /* heights */
    unsigned strips;      /* none where no Step was found right */
    unsigned top;         /* where the lanes begin */
};

/* Whether the trace is refused for something else than a Step. */
static bool stops(const struct shown *shown)
{
    const uint32_t number = pomurica_get_word(shown->explanation, POMURICA_EXPLANATION_NUMBER);

    return shown->right == shown->judged && number != POMURICA_DONE;
}

static bool has_flag(const struct row *row)
{
    return has_wrong_step(row) || (is_last_row(row) && stops(row->shown));
}

/* A row that is the only one has high lanes. */
static struct picture measure(const struct row *row)
{
    const bool alone = row->shown->recorded <= row->spread->columns;
    const unsigned most = FIELD / row->spread->columns;
    struct picture picture = { .row = row, .width = most < WIDEST ? most : WIDEST };

    picture.end_width = picture.width < RIGHT ? picture.width : RIGHT - 4;
    if (picture.end_width < 6)
        picture.end_width = 6;
    picture.lane = alone ? 24 : 14;
    picture.strip = alone ? 18 : 13;
    picture.strips = row->first < row->shown->right ? STRIPS : 0;
    picture.top = has_flag(row) ? FLAG : 2;
    return picture;
}

static unsigned column_x(const struct picture *picture, uint32_t column)
{
    return LEFT + column * picture->width;
}

static unsigned step_x(const struct picture *picture, uint32_t index)
{
    return column_x(picture, column_of(picture->row, index));
}

static unsigned lane_y(const struct picture *picture, unsigned lane)
{
    return picture->top + lane * (picture->lane + LANE_GAP);
}

static unsigned strip_y(const struct picture *picture, unsigned strip)
{
    return lane_y(picture, picture->row->spread->lanes) + 2 + strip * picture->strip;
}

static unsigned axis_y(const struct picture *picture)
{
    return strip_y(picture, picture->strips);
}

/* The bars of a series as one path, on the line that ends at y + height. */
static void draw_bars(FILE *out, const struct picture *picture, enum series series, unsigned y, unsigned height)
{
    const struct row *const row = picture->row;
    const unsigned gap = is_single(row->spread) ? 1 : 0;
    uint32_t end;

    if (!has_any(row, series))
        return;
    fprintf(out, "<path class=\"%s\" d=\"", STYLES[series]);
    for (uint32_t column = 0; column < row->used; column = end) {
        const unsigned part = share(row->columns + column, series, height);
        unsigned width;

        end = end_of_run(row, series, column);
        if (row->columns[column].counts[series] == 0)
            continue;
        width = (end - column) * picture->width - gap;
        fprintf(out, "M%u %uh%uv%uh-%uz", column_x(picture, column), y + height - part, width, part, width);
    }
    fputs("\"/>\n", out);
}

/*
 * The marks of single Steps as one path: an entry is a triangle that points up, a
 * return one that points down, a refusal a cross.  Neighbours do not touch.
 */
static void draw_marks(FILE *out, const struct picture *picture, enum series series, unsigned y)
{
    const unsigned high = picture->strip - 6, wide = picture->width - 2;
    const unsigned size = high < wide ? high : wide, half = (size + 1) / 2;
    const struct row *const row = picture->row;

    if (!has_any(row, series))
        return;
    fprintf(out, "<path class=\"%s\" d=\"", STYLES[series]);
    for (uint32_t column = 0; column < row->used; column++) {
        const unsigned middle = column_x(picture, column) + picture->width / 2;

        if (row->columns[column].counts[series] == 0)
            continue;
        if (series == ENTRIES)
            fprintf(out, "M%u %ul%u %uh-%uz", middle, y + 2, half, size + 1, 2 * half);
        else if (series == RETURNS)
            fprintf(out, "M%u %ul%u-%uh-%uz", middle, y + 3 + size, half, size + 1, 2 * half);
        else
            fprintf(out, "M%u %ul%u %um0-%ul-%u %u", middle - size / 2, y + 3, size, size, size, size, size);
    }
    fputs("\"/>\n", out);
}

/* The names of modes, in the bars that have room for them. */
static void name_modes(FILE *out, const struct picture *picture)
{
    const struct row *const row = picture->row;
    uint32_t end;

    for (uint32_t column = 0; column < row->used; column = end) {
        const char *const name = mode_name(row->columns[column].mode);
        const enum lane lane = lane_of(block_at(row->shown, row->first + column));
        const bool judged = row->columns[column].counts[lane_series(lane, true)] != 0;

        end = end_of_run(row, lane_series(lane, judged), column);
        if (name != NULL && (end - column) * picture->width >= LETTER * strlen(name) + LETTER)
            fprintf(out, "<text class=\"mode%s\" x=\"%u\" y=\"%u\">%s</text>\n", judged ? "" : " unjudged",
                    column_x(picture, column) + 5, lane_y(picture, lane) + picture->lane / 2 + 4, name);
    }
}

/* The name of a lane or a strip, before it. */
static void put_line_name(FILE *out, const char *name, unsigned y, unsigned height)
{
    fprintf(out, "<text class=\"name\" x=\"%d\" y=\"%u\">%s</text>\n", LEFT - 8, y + height / 2 + 4, name);
}

static void draw_lanes(FILE *out, const struct picture *picture)
{
    const unsigned width = picture->row->used * picture->width, height = picture->lane;

    for (unsigned lane = 0; lane < picture->row->spread->lanes; lane++) {
        put_line_name(out, LANE_NAMES[lane], lane_y(picture, lane), height);
        fprintf(out, "<path class=\"lane\" d=\"M%d %uh%uv%uh-%uz\"/>\n", LEFT, lane_y(picture, lane), width, height,
                width);
    }
}

static void draw_modes(FILE *out, const struct picture *picture)
{
    for (unsigned lane = 0; lane < picture->row->spread->lanes; lane++) {
        draw_bars(out, picture, lane_series(lane, false), lane_y(picture, lane), picture->lane);
        draw_bars(out, picture, lane_series(lane, true), lane_y(picture, lane), picture->lane);
    }
    if (is_single(picture->row->spread))
        name_modes(out, picture);
}

static void draw_strips(FILE *out, const struct picture *picture)
{
    for (unsigned strip = 0; strip < picture->strips; strip++) {
        const unsigned y = strip_y(picture, strip), height = picture->strip;

        put_line_name(out, STRIP_NAMES[strip], y, height);
        if (is_single(picture->row->spread))
            draw_marks(out, picture, ENTRIES + strip, y);
        else
            draw_bars(out, picture, ENTRIES + strip, y, height - 1);
    }
}

/* Whether a Step's number stands on the axis: the first of a row, and round ones as close as there is room. */
static bool is_numbered(const struct picture *picture, uint32_t index)
{
    const struct spread *const spread = picture->row->spread;
    uint32_t every = picture->width < NUMBERING ? 10 : 1;

    if (!is_single(spread))
        every = spread->per_column * SHARED_COLUMNS / 10;
    return index == picture->row->first || (index + 1) % every == 0;
}

/* A number on the axis, or an event below the numbers; the caller ends the text. */
static void begin_number(FILE *out, const struct picture *picture, unsigned x)
{
    fprintf(out, "<text class=\"number\" x=\"%u\" y=\"%u\">", x, axis_y(picture) + 14);
}

static void begin_event(FILE *out, const struct picture *picture, unsigned x)
{
    fprintf(out, "<text class=\"number event\" x=\"%u\" y=\"%u\">", x, axis_y(picture) + 14 + AXIS - 5);
}

static void draw_axis(FILE *out, const struct picture *picture)
{
    for (uint32_t index = picture->row->first; index < picture->row->last; index++) {
        if (!is_numbered(picture, index))
            continue;
        begin_number(out, picture, step_x(picture, index) + picture->width / 2);
        put_count(out, index + 1);
        fputs("</text>\n", out);
    }
}

/* How much of a name has room, in whole words. */
static int fitting(const char *name, unsigned width)
{
    size_t length = strlen(name);

    while (length * SMALL_LETTER > width)
        do
            length--;
        while (length > 0 && name[length] != ' ');
    return (int)length;
}

/* The name of an event below its column.  Of "exception return" the first word alone would say something else. */
static const char *column_name(const uint8_t *step)
{
    const uint32_t code = pomurica_get_word(step, POMURICA_STEP_CODE);

    return code == POMURICA_EVENT_RETURN ? "return" : event_name(code);
}

static void name_events(FILE *out, const struct picture *picture)
{
    const struct row *const row = picture->row;

    for (uint32_t index = row->first; index < row->last; index++) {
        const char *const name = column_name(step_at(row->shown->trace, index));

        if (name == NULL)
            continue;
        begin_event(out, picture, step_x(picture, index) + picture->width / 2);
        fprintf(out, "%.*s</text>\n", fitting(name, picture->width), name);
    }
}

/* A flag above the lanes, with its words on the side that has room; the caller ends the text. */
static void begin_flag(FILE *out, unsigned x)
{
    fprintf(out, "<path class=\"flag\" d=\"M%u %dl-5-8h10z\"/>\n", x, FLAG - 1);
    if (x < WIDTH / 2)
        fprintf(out, "<text class=\"flag\" x=\"%u\" y=\"%d\">", x + 9, FLAG - 8);
    else
        fprintf(out, "<text class=\"flag ends\" x=\"%u\" y=\"%d\">", x - 9, FLAG - 8);
}

/* A frame around the column of the wrong Step, of a style of its own behind the bars and before them. */
static void frame_wrong_step(FILE *out, const struct picture *picture, const char *style)
{
    fprintf(out, "<rect class=\"%s\" x=\"%u\" y=\"%u\" width=\"%u\" height=\"%u\"/>\n", style,
            step_x(picture, picture->row->shown->right), picture->top - 1, picture->width < 4 ? 4 : picture->width,
            axis_y(picture) - picture->top);
}

static void flag_wrong_step(FILE *out, const struct picture *picture)
{
    const uint32_t index = picture->row->shown->right;

    frame_wrong_step(out, picture, "wrong frame");
    begin_flag(out, step_x(picture, index) + picture->width / 2);
    fputs("Step ", out);
    put_count(out, index + 1);
    fputs(" WRONG</text>\n", out);
}

static void flag_stop(FILE *out, const struct picture *picture, unsigned x)
{
    const uint8_t *const explanation = picture->row->shown->explanation;
    const uint32_t number = pomurica_get_word(explanation, POMURICA_EXPLANATION_NUMBER);

    fprintf(out, "<path class=\"stop\" d=\"M%u %uv%u\"/>\n", x, picture->top, axis_y(picture) - picture->top);
    begin_flag(out, x);
    fprintf(out, "stops here: %" PRIu32 " %s at byte %" PRIu32 "</text>\n", number, pomurica_number_name(number),
            pomurica_get_word(explanation, POMURICA_EXPLANATION_PLACE));
}

/* Behind the last column: the mode that the last Step left. */
static void draw_end(FILE *out, const struct picture *picture)
{
    const struct shown *const shown = picture->row->shown;
    const enum lane lane = lane_of(block_at(shown, shown->recorded));
    const unsigned x = column_x(picture, picture->row->used), width = picture->end_width;

    fprintf(out, "<rect class=\"%s end\" x=\"%u\" y=\"%u\" width=\"%u\" height=\"%u\"/>\n",
            STYLES[lane_series(lane, shown->right == shown->recorded)], x + 1, lane_y(picture, lane) + 1,
            width - 2, picture->lane - 2);
    if (width * 2 > RIGHT) {
        begin_number(out, picture, x + width / 2);
        fputs("end</text>\n", out);
    }
    if (stops(shown))
        flag_stop(out, picture, x + width + 3);
}

/* Over each Step: its words for a pointer that rests there, and the way to its line.  The keyboard goes by the list. */
static void draw_links(FILE *out, const struct picture *picture)
{
    for (uint32_t index = picture->row->first; index < picture->row->last; index++) {
        const uint8_t *const step = step_at(picture->row->shown->trace, index);

        fprintf(out, "<a href=\"#s%" PRIu32 "\" tabindex=\"-1\">", index + 1);
        fprintf(out, "<rect class=\"link\" x=\"%u\" y=\"%u\" width=\"%u\" height=\"%u\">", step_x(picture, index),
                picture->top, picture->width, axis_y(picture) - picture->top);
        fprintf(out, "<title>Step %" PRIu32 ": ", index + 1);
        tell_event(out, step);
        fputs("; ", out);
        tell_state(out, block_before(step));
        fputs("</title></rect></a>\n", out);
    }
}

/* What is drawn later hides what was before it: the links lie over everything. */
static void draw_parts(FILE *out, const struct picture *picture)
{
    const bool has_wrong = has_wrong_step(picture->row);

    draw_lanes(out, picture);
    if (has_wrong)
        frame_wrong_step(out, picture, "wrong");
    draw_modes(out, picture);
    draw_strips(out, picture);
    draw_axis(out, picture);
    if (picture->width >= NAMING)
        name_events(out, picture);
    if (has_wrong)
        flag_wrong_step(out, picture);
    if (is_last_row(picture->row))
        draw_end(out, picture);
    if (is_single(picture->row->spread))
        draw_links(out, picture);
}

/* Where the link beside the verdict leads: a window that is too narrow for the row scrolls to the wrong Step's column. */
static void mark_wrong_step(FILE *out, const struct picture *picture)
{
    const unsigned middle = step_x(picture, picture->row->shown->right) + picture->width / 2;

    fprintf(out, "<span id=\"wrong\" style=\"left: calc(100%% * %u / %d)\"></span>\n", middle, WIDTH);
}

void draw_picture(FILE *out, const struct row *row)
{
    const struct picture picture = measure(row);
    const unsigned axes = picture.width >= NAMING ? 2 : 1;

    fputs("<div class=\"row\">\n", out);
    if (has_wrong_step(row))
        mark_wrong_step(out, &picture);
    fprintf(out, "<svg role=\"img\" viewBox=\"0 0 %d %u\" aria-label=\"modes, Step %" PRIu32 " and on\">\n", WIDTH,
            axis_y(&picture) + axes * AXIS, row->first + 1);
    draw_parts(out, &picture);
    fputs("</svg>\n</div>\n", out);
}
