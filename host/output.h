/* What the programs print on standard output. */
#ifndef OUTPUT_H
#define OUTPUT_H

/*
 * Sends what was printed on its way.  What nobody gets must not look like an
 * answer: the program then says so and ends with status 2.
 */
void send_output(void);

/*
 * Lets what was printed wait for more, up to a buffer of it, so that a line of
 * many does not cost a call of the system.  It is to be sent before the program
 * waits for anybody (input.h does), tells something elsewhere, or ends.
 */
void hold_output(void);

#endif
