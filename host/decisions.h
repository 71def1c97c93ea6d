/*
 * The decision table, for a test bench that has no room for the rules: whether
 * a physical exception alone is taken, and where it goes.
 *
 * Index, the lowest bit first: pending, its mask bit in CPSR (A, F, I), W (SCR.AW,
 * SCR.FW, for IRQ 1), M (HCR.AMO, FMO, IMO), HCR.TGE, R (SCR.EA, FIQ, IRQ), and
 * two bits of class: 0 Secure, 1 Non-secure User or EL1, 2 Hyp, 3 unused.
 *
 * Entry: 0 not taken, 1 to Monitor, 2 to Hyp, 3 to the default mode (Abort for
 * SError, FIQ, IRQ), 4 for class 3.
 *
 * Made by `./decisions --header`, from the proved table.
 */
#ifndef POMURICA_DECISIONS_H
#define POMURICA_DECISIONS_H

#include <stdint.h>

static const uint8_t pomurica_decisions[256] = {
    0, 3, 0, 0, 0, 3, 0, 0, 0, 3, 0, 0, 0, 3, 0, 0,
    0, 3, 0, 0, 0, 3, 0, 0, 0, 3, 0, 0, 0, 3, 0, 0,
    0, 1, 0, 0, 0, 1, 0, 0, 0, 1, 0, 0, 0, 1, 0, 0,
    0, 1, 0, 0, 0, 1, 0, 0, 0, 1, 0, 0, 0, 1, 0, 0,
    0, 3, 0, 0, 0, 3, 0, 0, 0, 2, 0, 2, 0, 2, 0, 2,
    0, 2, 0, 2, 0, 2, 0, 2, 0, 2, 0, 2, 0, 2, 0, 2,
    0, 1, 0, 1, 0, 1, 0, 0, 0, 1, 0, 1, 0, 1, 0, 1,
    0, 1, 0, 1, 0, 1, 0, 1, 0, 1, 0, 1, 0, 1, 0, 1,
    0, 2, 0, 0, 0, 2, 0, 0, 0, 2, 0, 0, 0, 2, 0, 0,
    0, 2, 0, 0, 0, 2, 0, 0, 0, 2, 0, 0, 0, 2, 0, 0,
    0, 1, 0, 1, 0, 1, 0, 0, 0, 1, 0, 1, 0, 1, 0, 1,
    0, 1, 0, 1, 0, 1, 0, 1, 0, 1, 0, 1, 0, 1, 0, 1,
    4, 4, 4, 4, 4, 4, 4, 4, 4, 4, 4, 4, 4, 4, 4, 4,
    4, 4, 4, 4, 4, 4, 4, 4, 4, 4, 4, 4, 4, 4, 4, 4,
    4, 4, 4, 4, 4, 4, 4, 4, 4, 4, 4, 4, 4, 4, 4, 4,
    4, 4, 4, 4, 4, 4, 4, 4, 4, 4, 4, 4, 4, 4, 4, 4,
};

#endif
