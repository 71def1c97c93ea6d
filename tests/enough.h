/* Whether a comparison of steps met each thing often enough. */
#ifndef ENOUGH_H
#define ENOUGH_H

/* Prints every count of met, and checks that each is large enough for so many million steps. */
void show_met(unsigned long millions);

#endif
