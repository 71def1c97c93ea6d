/* The Steps of a page, in pictures. */
#ifndef TIMELINE_H
#define TIMELINE_H

#include "shown.h"

#include <stdio.h>

/* The modes by Step, as pictures, with what their marks mean. */
void draw_timeline(FILE *out, const struct shown *shown);

#endif
