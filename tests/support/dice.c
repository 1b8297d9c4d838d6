#include "support/dice.h"

struct dice dice_from(uint64_t seed)
{
    struct dice d = {seed};
    return d;
}

/* The high half of splitmix64's next number. */
uint32_t dice_word(struct dice *d)
{
    uint64_t z = d->state += UINT64_C(0x9e3779b97f4a7c15);
    z = (z ^ (z >> 30)) * UINT64_C(0xbf58476d1ce4e5b9);
    z = (z ^ (z >> 27)) * UINT64_C(0x94d049bb133111eb);
    return (uint32_t)((z ^ (z >> 31)) >> 32);
}

uint32_t dice_below(struct dice *d, uint32_t bound)
{
    return (uint32_t)(((uint64_t)dice_word(d) * bound) >> 32);
}
