/* The numbers that a step answers, for those who count them. */
#ifndef NUMBERS_H
#define NUMBERS_H

#include "pomurica.h"

#include <stdbool.h>
#include <stdint.h>

enum {
    LAST_NUMBER = POMURICA_NOT_BANKED,       /* of all that there are */
    STEP_NUMBERS = POMURICA_OWN_REGISTER + 1 /* to count those of a step by */
};

/* Whether a step can answer so; BAD_SIZE only where a buffer has not its size. */
static inline bool is_of_step(uint32_t number)
{
    return number <= POMURICA_NO_RIGHT || number == POMURICA_DISABLED || number == POMURICA_OWN_REGISTER;
}

#endif
