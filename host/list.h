/*
 * Lists of names.  A month has more traces than a command has room for
 * arguments, so their names come as text: each ends with a zero byte where the
 * text has one, as `find -print0` writes them, and else with its line.
 */
#ifndef LIST_H
#define LIST_H

#include <stdbool.h>
#include <stddef.h>

struct list {
    char *text;   /* what the names point into */
    char **names; /* in their order */
    size_t count;
};

/*
 * Reads the list in the file of this name, or on standard input for `-`.  Tells
 * on standard error what goes wrong: also a list without a name, since nothing
 * asked for must not look like nothing refused.  Only what was read is to be freed.
 */
bool read_list(struct list *list, const char *name);

void free_list(struct list *list);

#endif
