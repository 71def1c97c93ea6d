/* The line of progress on standard error, of several files and on a terminal alone. */
#ifndef PROGRESS_H
#define PROGRESS_H

#include <stdbool.h>
#include <stddef.h>
#include <stdint.h>

struct progress {
    bool wanted, shown;
    int64_t shown_at;
    size_t total;
};

/* Of so many files; nothing is shown yet. */
void begin_progress(struct progress *progress, size_t total);

/* So many are judged. */
void show_progress(struct progress *progress, size_t judged);

/* Makes way for a line: standard output may be the same terminal. */
void hide_progress(struct progress *progress);

#endif
