/*
 * A session lent to its calls: guard bytes stand around it and around the
 * report, and behind a run nothing may even be read (edge.h, which is opened
 * first).
 */
#ifndef SESSIONS_H
#define SESSIONS_H

#include "lent.h"
#include "pomurica.h"

#include <stdbool.h>
#include <stddef.h>
#include <stdint.h>

typedef uint32_t open_function(struct pomurica_session *);
typedef uint32_t feed_function(struct pomurica_session *, const uint8_t *, size_t);
typedef uint32_t close_function(struct pomurica_session *, uint8_t *, size_t);

/* The three calls of one side. */
struct calls {
    open_function *open;
    feed_function *feed;
    close_function *close;
};

/* A session that is lent to one side. */
struct fed {
    const struct calls *calls;
    struct lent session;
};

/* One closing. */
struct closing {
    struct lent report;
    uint32_t number;
    bool guards_kept;
};

/* Lends a session of these words, moved up by so many words of four bytes (0 to 3). */
void lend_session(struct fed *fed, const struct calls *calls, const struct pomurica_session *words, size_t shift);

/* Takes it back: whether every guard byte around it is as it was. */
bool take_session_back(struct fed *fed);

/* What it holds now, and whether that is what it held at the beginning of a call, or on another side. */
struct pomurica_session words_of(const struct fed *fed);
bool has_words(const struct fed *fed, const struct pomurica_session *words);

/* The calls.  A run is read where it lies: the caller lends it. */
uint32_t open_session(struct fed *fed);
uint32_t feed_session(struct fed *fed, const uint8_t *run, size_t length);
void close_session(struct fed *fed, size_t report_len, struct closing *closing);

/* The record that a session waits for, none behind the End. */
enum due {
    DUE_START, DUE_STEP, DUE_END, DUE_NONE,
    DUES
};
enum due due_of(const struct pomurica_session *words);

/* Whether it is in the old layout: while the Start is due by the kind that it holds, then by its stage; not if over. */
bool is_in_old(const struct pomurica_session *words);

/* The size and the first word of the record due; 0 for none. */
size_t size_due(const struct pomurica_session *words);
uint32_t head_due(const struct pomurica_session *words);

#endif
