/* What goes wrong with a file, told on standard error. */
#ifndef COMPLAIN_H
#define COMPLAIN_H

/* The program that complains: its name stands before each complaint.  Said once, before the first. */
void complain_as(const char *program);

/* Tells on a line of its own what is wrong with the file of this name; the form and what follows are printf's. */
__attribute__((format(printf, 2, 3))) void complain(const char *name, const char *form, ...);

#endif
