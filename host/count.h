/* Numbers as a page prints them. */
#ifndef COUNT_H
#define COUNT_H

#include <stdint.h>
#include <stdio.h>

/* A number for a person to read: "65,535". */
void put_count(FILE *out, uint32_t count);

#endif
