/* The lines of a log, which is text: of any length, each as it arrives. */
#ifndef LOG_H
#define LOG_H

#include "input.h"

#include <stdbool.h>
#include <stddef.h>

/* Of a line that is longer only so much is looked at at once. */
enum { LOG_ROOM = 64 * 1024 };

/*
 * What stands in a line without its end, or a piece of whole characters of a
 * line that is longer than the room.  Behind it is a byte that goes on with no
 * character.
 */
struct piece {
    const char *text;
    size_t length;
    bool begins, ends; /* the line */
    size_t line;       /* its number, counted from 1 */
};

/* A log being read. */
struct log {
    struct input input;
    char text[LOG_ROOM + 1]; /* a zero is behind the last byte */
    size_t at, length;       /* the next piece begins at `at` */
    size_t line;             /* the number of the last one of which a piece was given */
    bool within;             /* and more of it is to come */
    bool ended;              /* no more text is to come */
};

/* Both that return a number return 0 or the system's reason why they cannot. */

/* Opens the log in the file of this name, or in standard input for `-`. */
int open_log(struct log *log, const char *name);
void close_log(struct log *log);

/*
 * The next piece, which stays until there is another; its text is NULL at the
 * end.  What was printed is sent before it waits for more of the log.
 *
 * A line ends with LF or with CR and LF; the last one also with the log, and
 * with a CR there.  A mark of UTF-8 before the first line is none of its text.
 * A line that a failing read cuts off is not given: what is there of it may be
 * another word.
 */
int next_piece(struct log *log, struct piece *piece);

#endif
