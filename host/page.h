/*
 * A trace as a page for a browser: its verdict, a timeline of modes, and its
 * Steps.  The page is whole in itself: it asks for no other file, no network
 * and no script, and whatever the bytes and the name are, they show as text.
 */
#ifndef PAGE_H
#define PAGE_H

#include <stddef.h>
#include <stdint.h>
#include <stdio.h>

/* Writes the page of the trace in a file of that name, with what pomurica_explain says of it. */
void write_page(FILE *out, const char *name, const uint8_t *trace, size_t length, const uint8_t *explanation);

#endif
