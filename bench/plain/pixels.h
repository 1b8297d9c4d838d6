/* A fork of four pixels, written at once. */
#ifndef PLAIN_PIXELS_H
#define PLAIN_PIXELS_H

#include <stdint.h>

#define PLAIN_PIXEL(black) 0, UINT32_MAX, UINT32_MAX, UINT32_MAX, UINT32_MAX, black
#define PLAIN_PIXELS(k)                                                                                          \
    {0, 1, 2, 3, 4, 2, PLAIN_PIXEL(k & 1), PLAIN_PIXEL(k >> 1 & 1), PLAIN_PIXEL(k >> 2 & 1), PLAIN_PIXEL(k >> 3)}

/* The words of the fork with number 0 and of its sons, by their colours: bit q is
 * set where the son in quadrant q is black. */
static const uint32_t plain_pixels[16][30] = {
    PLAIN_PIXELS(0),  PLAIN_PIXELS(1),  PLAIN_PIXELS(2),  PLAIN_PIXELS(3), PLAIN_PIXELS(4),  PLAIN_PIXELS(5),
    PLAIN_PIXELS(6),  PLAIN_PIXELS(7),  PLAIN_PIXELS(8),  PLAIN_PIXELS(9), PLAIN_PIXELS(10), PLAIN_PIXELS(11),
    PLAIN_PIXELS(12), PLAIN_PIXELS(13), PLAIN_PIXELS(14), PLAIN_PIXELS(15)};

/* The words of them that count from the fork's number, all bits set. */
#define PLAIN_FATHER UINT32_MAX, 0, 0, 0, 0, 0
static const uint32_t plain_counted[30] = {0,          UINT32_MAX,   UINT32_MAX,   UINT32_MAX,   UINT32_MAX,
                                           0,          PLAIN_FATHER, PLAIN_FATHER, PLAIN_FATHER, PLAIN_FATHER};

/* Writes fork 'me' and its sons, whose numbers follow. */
static inline void plain_write_pixels(uint32_t *restrict table, uint32_t me, uint32_t father, uint32_t colours)
{
    uint32_t *restrict words = table + (uint64_t)me * 6;
    const uint32_t *pixels = plain_pixels[colours];
    for (int i = 0; i < 30; i++)
        words[i] = pixels[i] + (plain_counted[i] & me);
    words[0] = father;
}

#endif
