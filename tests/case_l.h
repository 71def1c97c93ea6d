/*
 * Worked case l of document 01: the shortest trace, a Start of a block of
 * zeros, without a Step, and its End; and the same in the new layout (No. 11).
 */
#ifndef CASE_L_H
#define CASE_L_H

#include <stdint.h>

enum {
    OLD_SHORTEST_SIZE = 192,
    OLD_SHORTEST_END = 184, /* where its End begins */
    SHORTEST_SIZE = 196,
    SHORTEST_END = 188
};

static const uint8_t OLD_SHORTEST[OLD_SHORTEST_SIZE] = { 0xB8, 0, 1, 0, [OLD_SHORTEST_END] = 8, 0, 3, 0 };
static const uint8_t SHORTEST[SHORTEST_SIZE] = { 0xBC, 0, 4, 0, [SHORTEST_END] = 8, 0, 3, 0 };

#endif
