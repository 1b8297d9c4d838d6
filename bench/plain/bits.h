/* Bits of pixels. */
#ifndef PLAIN_BITS_H
#define PLAIN_BITS_H

#include <stdint.h>

/* A row or a column of at most 128 pixels. */
struct plain_line {
    uint64_t bits[2];
};

/* How many bits are set. There may be an instruction for it, but x86-64 has none. */
static inline uint32_t plain_bits_set(uint64_t word)
{
    word -= word >> 1 & UINT64_C(0x5555555555555555);
    word = (word & UINT64_C(0x3333333333333333)) + (word >> 2 & UINT64_C(0x3333333333333333));
    return (uint32_t)(((word + (word >> 4)) & UINT64_C(0x0f0f0f0f0f0f0f0f)) * UINT64_C(0x0101010101010101) >> 56);
}

/* The bits of a block's side in its line, all in one of the two words; the side is
 * 64 at most. */
static inline uint64_t plain_span(uint32_t from, uint32_t side)
{
    return UINT64_MAX >> (64 - side) << from % 64;
}

#endif
