/* What a timeline shows, counted: see columns.h. */
#include "columns.h"

#include "phrases.h"
#include "pomurica.h"

#include <string.h>

/* Rows of columns that several Steps share, at most. */
enum { MOST_ROWS = 14 };

enum lane lane_of(const uint8_t *block)
{
    const uint32_t mode = mode_of(block);

    if (mode_name(mode) == NULL)
        return LANE_NONE;
    if (mode == POMURICA_MODE_MONITOR)
        return LANE_MONITOR;
    if (mode == POMURICA_MODE_HYP)
        return LANE_HYP;
    return pomurica_get_word(block, POMURICA_PLACE_SCR) & POMURICA_SCR_NS ? LANE_GUEST : LANE_SECURE;
}

static enum outcome recorded_outcome(const struct shown *shown, uint32_t index)
{
    const uint8_t *const step = step_at(shown->trace, index);

    return outcome_of(pomurica_get_word(step, POMURICA_STEP_CODE), pomurica_get_word(step, POMURICA_STEP_NUMBER),
                      pomurica_get_word(step, POMURICA_STEP_VALUE));
}

uint32_t count_right(const struct shown *shown, enum outcome outcome)
{
    uint32_t count = 0;

    for (uint32_t index = 0; index < shown->right; index++)
        count += recorded_outcome(shown, index) == outcome;
    return count;
}

static bool any_without_mode(const struct shown *shown)
{
    for (uint32_t index = 0; index <= shown->recorded; index++)
        if (lane_of(block_at(shown, index)) == LANE_NONE)
            return true;
    return false;
}

/* A round number of Steps to a column, so that a long trace has at most MOST_ROWS rows. */
static uint32_t choose_per_column(uint32_t steps)
{
    static const uint32_t PER_COLUMN[] = { 2, 5, 10 };
    const uint32_t *per_column = PER_COLUMN;

    while (*per_column * SHARED_COLUMNS * MOST_ROWS < steps)
        per_column++;
    return *per_column;
}

struct spread choose_spread(const struct shown *shown)
{
    const uint32_t steps = shown->recorded;
    struct spread spread = {
        .per_column = 1, .columns = SINGLE_COLUMNS, .lanes = any_without_mode(shown) ? LANES : LANES - 1,
    };

    if (steps <= SINGLE_COLUMNS) {
        spread.columns = steps == 0 ? 1 : steps;
    } else if (steps > MOST_SINGLE) {
        spread.per_column = choose_per_column(steps);
        spread.columns = SHARED_COLUMNS;
    }
    return spread;
}

static void count_step(struct row *row, uint32_t index)
{
    const struct shown *const shown = row->shown;
    struct column *const column = row->columns + column_of(row, index);
    const uint8_t *const block = block_at(shown, index);
    const enum outcome outcome = recorded_outcome(shown, index);

    column->steps++;
    column->wrong |= is_wrong(shown, index);
    column->counts[lane_series(lane_of(block), index < shown->judged)]++;
    if (is_single(row->spread))
        column->mode = (uint8_t)mode_of(block);
    if (index < shown->right && outcome == OUTCOME_ENTRY)
        column->counts[ENTRIES]++;
    if (index < shown->right && outcome == OUTCOME_RETURN)
        column->counts[RETURNS]++;
    if (index < shown->right && outcome == OUTCOME_REFUSED)
        column->counts[REFUSALS]++;
}

void begin_rows(struct row *row, const struct shown *shown, const struct spread *spread)
{
    row->shown = shown;
    row->spread = spread;
    row->last = 0;
    count_next_row(row);
}

void count_next_row(struct row *row)
{
    const uint32_t steps = row->spread->columns * row->spread->per_column, left = row->shown->recorded - row->last;

    row->first = row->last;
    row->last += left < steps ? left : steps;
    row->used = (row->last - row->first + row->spread->per_column - 1) / row->spread->per_column;
    memset(row->columns, 0, sizeof row->columns);
    for (uint32_t index = row->first; index < row->last; index++)
        count_step(row, index);
}

bool is_last_row(const struct row *row)
{
    return row->last == row->shown->recorded;
}

bool has_wrong_step(const struct row *row)
{
    const struct shown *const shown = row->shown;

    return is_wrong(shown, shown->right) && shown->right >= row->first && shown->right < row->last;
}

bool has_any(const struct row *row, enum series series)
{
    for (uint32_t column = 0; column < row->used; column++)
        if (row->columns[column].counts[series] != 0)
            return true;
    return false;
}

uint32_t end_of_run(const struct row *row, enum series series, uint32_t column)
{
    const struct column *const first = row->columns + column;

    do
        column++;
    while (column < row->used && row->columns[column].counts[series] == first->counts[series] &&
           row->columns[column].steps == first->steps && row->columns[column].mode == first->mode &&
           row->columns[column].wrong == first->wrong);
    return column;
}

unsigned share(const struct column *column, enum series series, unsigned height)
{
    const unsigned part = height * column->counts[series] / column->steps;

    return part < 2 ? 2 : part;
}
