/*
 * Feeding to be counted: one session over an honest trace of so many Steps, of
 * all codes in turn, 65,535 unless said, that comes in runs of so many bytes; 0
 * is all in one.
 *
 *     feed_loop WHO RUN [STEPS]
 *
 * WHO: `ours` and `c` feed it; `nothing` is the same loop over functions that
 * only return.  `check` and `c-check` judge it whole.
 */
#include "long_trace.h"
#include "speed.h"

#include <stdio.h>
#include <stdlib.h>
#include <string.h>

/* Who is called. */
struct calls {
    const char *who;
    uint32_t (*open)(struct pomurica_session *);
    uint32_t (*feed)(struct pomurica_session *, const uint8_t *, size_t);
    uint32_t (*close)(struct pomurica_session *, uint8_t *, size_t);
};

/* The loop's own cost. */
static uint32_t no_open(struct pomurica_session *session)
{
    (void)session;
    return 0;
}

static uint32_t no_feed(struct pomurica_session *session, const uint8_t *bytes, size_t bytes_len)
{
    (void)session, (void)bytes, (void)bytes_len;
    return 0;
}

static uint32_t no_close(struct pomurica_session *session, uint8_t *report, size_t report_len)
{
    (void)session, (void)report, (void)report_len;
    return 0;
}

static const struct calls CALLS[] = {
    { "nothing", no_open, no_feed, no_close },
    { "ours", pomurica_open, pomurica_feed, pomurica_close },
    { "c", fast_open, fast_feed, fast_close },
};

static uint32_t feed_all(const struct calls *calls, size_t run, size_t length)
{
    struct pomurica_session session;
    uint8_t report[POMURICA_REPORT_SIZE];

    calls->open(&session);
    for (size_t fed = 0; fed < length; fed += run)
        calls->feed(&session, long_trace + fed, length - fed < run ? length - fed : run);
    return calls->close(&session, report, sizeof report);
}

/* The number that the trace is given; for a name that is none, one that it cannot have. */
static uint32_t number_by(const char *who, size_t run, size_t length)
{
    uint8_t report[POMURICA_REPORT_SIZE];

    if (strcmp(who, "check") == 0)
        return pomurica_check(long_trace, length, report, sizeof report);
    if (strcmp(who, "c-check") == 0)
        return fast_check(long_trace, length, report, sizeof report);
    for (size_t i = 0; i < sizeof CALLS / sizeof CALLS[0]; i++)
        if (strcmp(who, CALLS[i].who) == 0)
            return feed_all(&CALLS[i], run, length);
    return POMURICA_BAD_SIZE;
}

int main(int argc, char **argv)
{
    const unsigned long run = argc > 2 ? strtoul(argv[2], NULL, 10) : 0;
    const unsigned long steps = argc > 3 ? strtoul(argv[3], NULL, 10) : POMURICA_MOST_STEPS;
    size_t length;

    if (argc < 3 || argc > 4 || steps == 0 || steps > POMURICA_MOST_STEPS) {
        fprintf(stderr, "usage: feed_loop WHO RUN [STEPS]\n");
        return 2;
    }
    length = record_long_trace((uint32_t)steps, true);
    return number_by(argv[1], run == 0 ? length : run, length) == POMURICA_DONE ? 0 : 1;
}
