/* The bytes of files. */
#ifndef INPUT_H
#define INPUT_H

#include <stdbool.h>
#include <stddef.h>
#include <stdint.h>

/* What is read: a file, a pipe, a device, a serial line. */
struct input {
    int file;
    bool is_named, is_line; /* opened by its name; a serial line */
};

/* Those that return a number return 0 or the system's reason why they cannot. */

/*
 * Opens the file of this name, or standard input for `-`; a serial line is set
 * for bytes (line.h) until it is closed.  Where opening or reading it could wait
 * for somebody, what was printed is sent before (output.h).
 */
int open_input(struct input *input, const char *name);
void close_input(struct input *input);

/* The next bytes, as soon as there are any, and as many as there are and have room; none at the end. */
int read_piece(const struct input *input, uint8_t *bytes, size_t room, size_t *length);

/* Both read to the end, or until the room is full. */

/* An open file, from where it stands. */
int read_all(int file, uint8_t *bytes, size_t room, size_t *length);

/* The file of this name, or standard input for `-`. */
int read_file(const char *name, uint8_t *bytes, size_t room, size_t *length);

#endif
