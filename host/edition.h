/* The edition of a program: what it says of it, and whether the archive has the same. */
#ifndef EDITION_H
#define EDITION_H

#include <stdbool.h>

/* Prints the version of the program, and by which rules it goes, as one line on standard output. */
void print_version(const char *program);

/*
 * Whether the archive is of the edition of the header that this was compiled
 * with; says so where it is not.  Each program asks before anything else: numbers
 * and sizes of another edition may be others.
 */
bool archive_belongs(const char *program);

#endif
