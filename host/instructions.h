/*
 * Instruction words in logs: which of them are banked accesses, and to which
 * registers.  The encodings are the archive's.
 */
#ifndef INSTRUCTIONS_H
#define INSTRUCTIONS_H

#include <stdbool.h>
#include <stddef.h>

/*
 * Prints each line of the logs with what its word is: "MRS r2, R8_usr: read 0",
 * the event by its word in a script and its A, or "NOT_BANKED".  The word is the
 * line's first field: one to eight hexadecimal digits, with 0x before them or
 * without.  Fields stand between blanks, and a blank line is passed over.
 *
 * Gives whether all was read.  A line whose first field is no word, and a log
 * that cannot be read, are told on standard error; the rest is still read.
 */
bool tell_instructions(char **files, size_t file_count);

#endif
