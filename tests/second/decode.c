/*
 * Decoding, leaf by leaf: every pixel of a leaf's block gets the leaf's colour.
 */
#include "second/second.h"

static void paint(uint8_t *raster, uint32_t n, struct second_block b, uint32_t colour)
{
    for (uint32_t y = b.top; y < b.top + b.side; y++)
        for (uint32_t x = b.left; x < b.left + b.side; x++)
            raster[(y << n) + x] = (uint8_t)colour;
}

uint64_t second_decode(uint32_t n, const uint32_t *table, size_t table_len, uint8_t *raster, size_t raster_len)
{
    int rule;
    uint64_t check = second_check(n, table, table_len, &rule);
    if (check % 256 == 1 || check % 256 == 2)
        return check;
    if (raster_len != (size_t)1 << (2 * n))
        return 2 + 256;
    if (check % 256 != 0)
        return check;
    for (uint32_t p = 0; p < table_len / 6; p++)
        if (table[p * 6 + 5] != 2)
            paint(raster, n, second_block(n, table, p), table[p * 6 + 5]);
    return 0;
}
