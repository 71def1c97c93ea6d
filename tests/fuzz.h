/*
 * Any bytes through the console's code.  tools/fuzz seeks bytes for which
 * something does not hold that has to hold of any, and the program then stops;
 * ./test tries those of tests/data/corpus again.
 *
 * The bytes of an input are: one that says how many tens of Steps are put
 * before the first of the trace; the name of the trace's file, up to a zero;
 * the trace.
 */
#ifndef FUZZ_H
#define FUZZ_H

#include <stddef.h>
#include <stdint.h>

/* The parts of an input, where they lie. */
struct input {
    uint32_t tens;
    const uint8_t *name, *trace;
    size_t name_length, length;
};

struct input parts_of(const uint8_t *data, size_t size);

/* The name and the trace of an input, each on the heap, where a read behind its last byte is seen. */
char *take_name(const struct input *input);
uint8_t *take_trace(const struct input *input, size_t *length);

/* Writes the Step of an event, of a layout, as its rules give it from the block that stands before it. */
struct layout;
void record_step(const struct layout *layout, uint8_t *step, uint32_t code, uint32_t a, uint32_t b);

/* What the fuzzer calls, by the names that it knows: to try an input, and to make another of one. */
int LLVMFuzzerTestOneInput(const uint8_t *data, size_t size);
size_t LLVMFuzzerCustomMutator(uint8_t *data, size_t size, size_t most, unsigned int seed);

#endif
