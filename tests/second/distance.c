/*
 * The chessboard distance of each node, as document 01 has it: for a black leaf
 * every white pixel of the raster is tried, and the least distance kept.
 */
#include "second/second.h"

/* The white pixels of a sheet, row by row. */
struct whites {
    uint32_t count;
    int32_t column[SECOND_MOST_PIXELS], row[SECOND_MOST_PIXELS];
};

static void paint(uint32_t n, const uint32_t *table, size_t table_len, uint8_t *raster)
{
    for (uint32_t p = 0; p < table_len / 6; p++) {
        struct second_block b = second_block(n, table, p);
        if (table[p * 6 + 5] != 2)
            for (uint32_t y = b.top; y < b.top + b.side; y++)
                for (uint32_t x = b.left; x < b.left + b.side; x++)
                    raster[(y << n) + x] = (uint8_t)table[p * 6 + 5];
    }
}

static void find_whites(struct whites *w, uint32_t n, const uint8_t *raster)
{
    w->count = 0;
    for (int32_t j = 0; j < INT32_C(1) << n; j++)
        for (int32_t i = 0; i < INT32_C(1) << n; i++)
            if (raster[(j << n) + i] == 0) {
                w->column[w->count] = i;
                w->row[w->count] = j;
                w->count++;
            }
}

/* From a centre to the two half pixels that begin at 'start'. */
static int32_t gap(int32_t centre, int32_t start)
{
    if (centre < start)
        return start - centre;
    if (centre > start + 2)
        return centre - (start + 2);
    return 0;
}

static uint32_t least_distance(struct second_block b, const struct whites *w)
{
    uint32_t least = 4294967295u;
    int32_t h = (int32_t)(2 * b.left + b.side), k = (int32_t)(2 * b.top + b.side);
    for (uint32_t i = 0; i < w->count; i++) {
        int32_t across = gap(h, 2 * w->column[i]), down = gap(k, 2 * w->row[i]);
        uint32_t distance = (uint32_t)(across > down ? across : down);
        if (distance < least)
            least = distance;
    }
    return least;
}

uint64_t second_distance(uint32_t n, const uint32_t *table, size_t table_len, uint32_t *distances, size_t distances_len)
{
    static uint8_t raster[SECOND_MOST_PIXELS];
    static struct whites w;
    int rule;
    uint64_t check = second_check(n, table, table_len, &rule);
    if (check % 256 == 1 || check % 256 == 2)
        return check;
    if (distances_len != table_len / 6)
        return 2 + 256 * 1;
    if (check % 256 != 0)
        return check;
    paint(n, table, table_len, raster);
    find_whites(&w, n, raster);
    for (uint32_t p = 0; p < table_len / 6; p++)
        distances[p] = table[p * 6 + 5] == 1 ? least_distance(second_block(n, table, p), &w) : 0;
    return 0;
}
