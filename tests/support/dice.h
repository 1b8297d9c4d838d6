/* Numbers drawn from a seed: the same seed gives the same numbers, everywhere. */
#ifndef SUPPORT_DICE_H
#define SUPPORT_DICE_H

#include <stdint.h>

struct dice {
    uint64_t state;
};

struct dice dice_from(uint64_t seed);

/* Any 32-bit word. */
uint32_t dice_word(struct dice *d);

/* A number from 0 to bound - 1; the bound is above 0. */
uint32_t dice_below(struct dice *d, uint32_t bound);

#endif
