/*
 * A trace lent to a call so that its last byte is the last that may be read:
 * behind it lies a page without rights, so that a read past the end is seen
 * also in code that no sanitizer compiled.  And room of that kind for what is
 * written.
 */
#ifndef EDGE_H
#define EDGE_H

#include <stddef.h>
#include <stdint.h>

/* Room for traces of at most this length; ends the program where there is no memory. */
void open_edge(size_t most);

/* A copy of the bytes, up to the edge; the copy before is gone. */
const uint8_t *lend_at_edge(const uint8_t *bytes, size_t length);

/* Room for at least so many bytes with an edge of its own: gives where that is, right behind the last of them. */
uint8_t *open_room(size_t most);

#endif
