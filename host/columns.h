/*
 * What a timeline shows, counted.  It is rows of columns.  A column stands for
 * one Step, or for several of a long trace, and counts in each lane how many of
 * its Steps were in a mode of that lane, and which were entries, returns and
 * refusals.
 */
#ifndef COLUMNS_H
#define COLUMNS_H

#include "layout.h"
#include "record.h"
#include "shown.h"

#include <stdbool.h>
#include <stdint.h>

enum lane {
    LANE_MONITOR, LANE_HYP, LANE_GUEST, LANE_SECURE, LANE_NONE, LANES
};

/* What is counted in a column: Steps by lane, those that nobody judged by lane, entries, returns and refusals. */
enum series {
    OF_LANE = 0,
    PALE_OF_LANE = LANES,
    ENTRIES = 2 * LANES,
    RETURNS,
    REFUSALS,
    SERIES
};

/* Where a Step of a lane is counted. */
static inline enum series lane_series(unsigned lane, bool judged)
{
    return (judged ? OF_LANE : PALE_OF_LANE) + lane;
}

/* The columns of a row at most: of a single Step each, or of several. */
enum {
    SINGLE_COLUMNS = 100, SHARED_COLUMNS = 500
};

/* How the Steps of a trace are spread. */
struct spread {
    uint32_t per_column, columns; /* Steps of a column, columns of a row */
    unsigned lanes;               /* LANES, or one less where no block is without a mode */
};

struct column {
    uint8_t counts[SERIES];
    uint8_t steps;
    uint8_t mode; /* of a single Step, so that two modes of one lane are two bars */
    bool wrong;   /* has the wrong Step, so that its bar stands for itself */
};

struct row {
    const struct shown *shown;
    const struct spread *spread;
    uint32_t first, last; /* its Steps */
    uint32_t used;        /* its columns */
    struct column columns[SHARED_COLUMNS];
};

static inline bool is_single(const struct spread *spread)
{
    return spread->per_column == 1;
}

/* The column of a row that a Step stands in. */
static inline uint32_t column_of(const struct row *row, uint32_t index)
{
    return (index - row->first) / row->spread->per_column;
}

/* The block that a Step found; for the number of all Steps, the one that the last left. */
static inline const uint8_t *block_at(const struct shown *shown, uint32_t index)
{
    return step_at(shown->trace, index) - layout_of(shown->trace)->block_size;
}

enum lane lane_of(const uint8_t *block);

/* How many of the right Steps came to this. */
uint32_t count_right(const struct shown *shown, enum outcome outcome);

/* Few Steps in one row; more in rows of a hundred; many in a few rows, several to a column. */
struct spread choose_spread(const struct shown *shown);

/* Makes the first row, and the next of a row that is not the last. */
void begin_rows(struct row *row, const struct shown *shown, const struct spread *spread);
void count_next_row(struct row *row);

bool is_last_row(const struct row *row);
bool has_wrong_step(const struct row *row);

/* Whether any column has something of a series, and where those end that are as this one in it. */
bool has_any(const struct row *row, enum series series);
uint32_t end_of_run(const struct row *row, enum series series, uint32_t column);

/* The height that a column's share of a series has; a single Step shows too. */
unsigned share(const struct column *column, enum series series, unsigned height);

#endif
