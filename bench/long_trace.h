/* A trace of so many Steps, of all codes in turn, for the counted programs that go over a whole one. */
#ifndef LONG_TRACE_H
#define LONG_TRACE_H

#include "pomurica.h"

#include <stdbool.h>
#include <stddef.h>
#include <stdint.h>

extern uint8_t long_trace[POMURICA_LONGEST_TRACE];

/* Makes the trace, of at most 65,535 Steps, and says how long it is; if it is not to be right, its last Step is wrong. */
size_t record_long_trace(uint32_t steps, bool right);

#endif
