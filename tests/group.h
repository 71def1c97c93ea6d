/*
 * What a test counts: a group of checks passes when every check in it held.
 * A program of tests ends with the line `N passed, M failed`.
 */
#ifndef GROUP_H
#define GROUP_H

#include <stdbool.h>

/* A buffer is lent with every length up to this, where every length is tried. */
enum {
    LONGEST_TRIED = 210
};

/* Closes the group before, if any, and opens one. */
void group(const char *name);

/* The same, of one that is there for several things: "old layout: wrong counts". */
void group_of(const char *of, const char *name);

/*
 * One check of the open group; tells what did not hold, the first ten times, and the end of the group how many more there
 * were.  Gives back whether it held.
 */
__attribute__((format(printf, 2, 3)))
bool check(bool held, const char *what, ...);

/* Whether the check that has just failed was told: only then is more to be said of it. */
bool is_telling(void);

/* Closes the last group, prints the count, and gives the exit status: 0 if no group failed. */
int summary(void);

#endif
