/* Lists of events of chance. */
#ifndef ANY_LIST_H
#define ANY_LIST_H

#include "chance.h"
#include "lists.h"

/* Events of a list that is not one of LONG_LIST, at most. */
enum {
    SHORT_LIST = 40
};

/*
 * A list of up to SHORT_LIST events, now and then of two at most, and one time in 64 of LONG_LIST, on a block that is mostly
 * good; each event is one for the block that those before it leave.  One time in eight a length is wrong.
 */
void any_list(struct chance *chance, struct list *list);

#endif
