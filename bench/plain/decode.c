/* Decoding for speed: the check, then each leaf painted row by row, going down
 * from the root, fork by fork. */
#include <string.h>

#include "plain/plain.h"

struct painting {
    const uint32_t *table;
    uint8_t *raster;
    uint32_t n;
};

static void paint_leaf(uint8_t *at, uint32_t n, uint32_t level, uint8_t colour)
{
    size_t across = (size_t)1 << n, side = (size_t)1 << level;
    if (level == 0) {
        *at = colour;
        return;
    }
    for (size_t y = 0; y < side; y++, at += across)
        switch (level) {
        case 1: memset(at, colour, 2); break;
        case 2: memset(at, colour, 4); break;
        case 3: memset(at, colour, 8); break;
        case 4: memset(at, colour, 16); break;
        default: memset(at, colour, side); break;
        }
}

static uint8_t type_of(const struct painting *p, uint32_t node)
{
    return (uint8_t)p->table[(size_t)node * 6 + 5];
}

/* A fork of four pixels. */
static void paint_pixels(const struct painting *p, const uint32_t *sons, uint8_t *at)
{
    uint8_t *below = at + ((size_t)1 << p->n);
    at[0] = type_of(p, sons[0]);
    at[1] = type_of(p, sons[1]);
    below[0] = type_of(p, sons[2]);
    below[1] = type_of(p, sons[3]);
}

static void paint_fork(const struct painting *p, uint32_t fork, uint32_t level, uint8_t *at)
{
    const uint32_t *sons = p->table + (size_t)fork * 6 + 1;
    size_t half = (size_t)1 << (level - 1);
    if (level == 1) {
        paint_pixels(p, sons, at);
        return;
    }
    for (size_t quadrant = 0; quadrant < 4; quadrant++) {
        uint8_t *quarter = at + (quadrant % 2) * half + ((quadrant / 2 * half) << p->n);
        uint8_t type = type_of(p, sons[quadrant]);
        if (type == 2)
            paint_fork(p, sons[quadrant], level - 1, quarter);
        else
            paint_leaf(quarter, p->n, level - 1, type);
    }
}

uint64_t plain_decode(uint32_t n, const uint32_t *table, size_t table_len, uint8_t *raster, size_t raster_len)
{
    struct painting p = {table, raster, n};
    if (n > 7)
        return 1;
    if (table_len == 0 || table_len > 131070 || table_len % 6 != 0)
        return 2;
    if (raster_len != (size_t)1 << (2 * n))
        return 2 + 256;
    uint64_t check = plain_check(n, table, table_len);
    if (check % 256 != 0)
        return check;
    if (table[5] == 2)
        paint_fork(&p, 0, n, raster);
    else
        paint_leaf(raster, n, n, (uint8_t)table[5]);
    return 0;
}
