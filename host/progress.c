/* The line of progress: see progress.h. */
#define _POSIX_C_SOURCE 200809L

#include "progress.h"

#include <stdio.h>
#include <time.h>
#include <unistd.h>

/* Progress is shown at most this often, in nanoseconds. */
#define BETWEEN_PROGRESS INT64_C(100000000)

static int64_t now(void)
{
    struct timespec time = { 0, 0 };

    clock_gettime(CLOCK_MONOTONIC, &time);
    return time.tv_sec * INT64_C(1000000000) + time.tv_nsec;
}

void begin_progress(struct progress *progress, size_t total)
{
    *progress = (struct progress){ .wanted = total > 1 && isatty(STDERR_FILENO), .shown_at = now(), .total = total };
}

void show_progress(struct progress *progress, size_t judged)
{
    const int64_t time = progress->wanted ? now() : 0;

    if (!progress->wanted || time - progress->shown_at < BETWEEN_PROGRESS)
        return;
    fprintf(stderr, "\r%zu of %zu files judged", judged, progress->total);
    fflush(stderr);
    progress->shown = true;
    progress->shown_at = time;
}

void hide_progress(struct progress *progress)
{
    if (!progress->shown)
        return;
    fprintf(stderr, "\r\033[K");
    fflush(stderr);
    progress->shown = false;
}
