/* The Steps of a page, in a list. */
#ifndef LISTING_H
#define LISTING_H

#include "shown.h"

#include <stdio.h>

/* The Steps that are listed, each opening to its changed words, and which are left out. */
void list_steps(FILE *out, const struct shown *shown);

#endif
