/*
 * Names that others chose, of files and in arguments, as text that is nothing
 * but a name, and lines of their texts.  A name could else forge a line of its
 * own, give orders to the terminal, or turn the verdict behind it round.
 */
#ifndef NAME_H
#define NAME_H

#include <stddef.h>
#include <stdio.h>

/* The bytes of the character that begins here, in text that ends with a zero, if it is one that is shown; else 0. */
size_t shown_size(const char *text);

/*
 * Puts a name on a line.  `?` stands for each byte of what is not shown: bytes
 * that are no UTF-8, control characters, ends of lines, and the controls that
 * turn the direction of the text.
 */
void put_name(FILE *out, const char *name);

/* The same as text of a page. */
void put_name_in_page(FILE *out, const char *name);

/*
 * Puts a line of a text, or whole characters of one, in the same way; a tab
 * stays.  It has so many bytes, zeros among them, and behind the last one a byte
 * that goes on with no character: a zero, or the end of the line.
 */
void put_line(FILE *out, const char *text, size_t length);

#endif
