/* A row of a timeline, as a picture. */
#ifndef PICTURE_H
#define PICTURE_H

#include "columns.h"

#include <stdio.h>

void draw_picture(FILE *out, const struct row *row);

#endif
