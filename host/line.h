/*
 * Serial lines, over which a unit sends its trace: terminals, but not the one
 * from which the console was started.  That one is a person's, who may end the
 * input with Ctrl-D and the console with Ctrl-C; its settings stay.
 */
#ifndef LINE_H
#define LINE_H

#include <stdbool.h>

bool is_line(int file);

/*
 * Sets a line so that each byte arrives as it was sent and when it comes, and
 * none is sent back.  As a terminal comes, it has the settings for a person who
 * types, and would swallow bytes, change them, wait for the end of a text line
 * and echo the trace to the unit.  Speed, parity and the like stay as they are:
 * they are the unit's, and set by stty.
 *
 * Returns 0 or the system's reason why it cannot.  One line at a time.
 */
int set_line(int file);

/* Gives it the settings back that it had.  That happens too if the console ends before, or a signal ends it. */
void reset_line(void);

#endif
