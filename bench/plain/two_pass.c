/*
 * The chessboard distance without the tree: the table is painted as a raster,
 * two passes over it give each pixel its steps to the nearest white one, and
 * each black leaf looks at the pixels round its centre.
 */
#include <string.h>

#include "plain/plain.h"
#include "plain/search.h"

/* On a sheet with a white pixel no pixel is so many steps from it. */
enum { FAR = 128, MOST_WIDTH = 128 + 2 };

/* The steps of each pixel, with a rim of one pixel that is far from white. */
struct steps {
    uint32_t side;
    uint8_t row[MOST_WIDTH][MOST_WIDTH];
};

static void paint(const uint32_t *table, uint32_t p, uint32_t left, uint32_t top, uint32_t side, struct steps *s)
{
    if (plain_is_fork(table, p)) {
        uint32_t half = side / 2;
        for (uint32_t quadrant = 0; quadrant < 4; quadrant++)
            paint(table, plain_son(table, p, quadrant), left + (quadrant & 1) * half, top + (quadrant >> 1) * half,
                  half, s);
        return;
    }
    for (uint32_t y = top; y < top + side; y++)
        memset(&s->row[y + 1][left + 1], plain_node(table, p)[5] == 0 ? 0 : FAR, side);
}

static void make_rim(struct steps *s)
{
    memset(s->row[0], FAR, s->side + 2);
    memset(s->row[s->side + 1], FAR, s->side + 2);
    for (uint32_t y = 1; y <= s->side; y++)
        s->row[y][0] = s->row[y][s->side + 1] = FAR;
}

static inline uint8_t lower(uint8_t a, uint8_t b)
{
    return a < b ? a : b;
}

static inline uint8_t one_more(uint8_t steps)
{
    return (uint8_t)(steps + 1);
}

static inline uint8_t lowest_of_three(const uint8_t *middle)
{
    return lower(lower(middle[-1], middle[0]), middle[1]);
}

/* ---- the two passes, pixel by pixel */

static void pass_down(struct steps *s)
{
    for (uint32_t y = 1; y <= s->side; y++)
        for (uint32_t x = 1; x <= s->side; x++)
            s->row[y][x] = lower(s->row[y][x], one_more(lower(lowest_of_three(&s->row[y - 1][x]), s->row[y][x - 1])));
}

static void pass_up(struct steps *s)
{
    for (uint32_t y = s->side; y >= 1; y--)
        for (uint32_t x = s->side; x >= 1; x--)
            s->row[y][x] = lower(s->row[y][x], one_more(lower(lowest_of_three(&s->row[y + 1][x]), s->row[y][x + 1])));
}

static void pass_by_pixels(struct steps *s)
{
    pass_down(s);
    pass_up(s);
}

/* ---- the two passes, with a row's steps from the row beside it taken at once */

static void step_from(uint8_t *restrict row, const uint8_t *restrict beside, uint32_t side)
{
    for (uint32_t x = 1; x <= side; x++)
        row[x] = lower(row[x], one_more(lowest_of_three(&beside[x])));
}

static void pass_by_rows(struct steps *s)
{
    for (uint32_t y = 1; y <= s->side; y++) {
        uint8_t *row = s->row[y], last = FAR;
        step_from(row, s->row[y - 1], s->side);
        for (uint32_t x = 1; x <= s->side; x++)
            row[x] = last = lower(row[x], one_more(last));
    }
    for (uint32_t y = s->side; y >= 1; y--) {
        uint8_t *row = s->row[y], last = FAR;
        step_from(row, s->row[y + 1], s->side);
        for (uint32_t x = s->side; x >= 1; x--)
            row[x] = last = lower(row[x], one_more(last));
    }
}

/* ---- the distances */

/* The centre of a leaf of one pixel is half a pixel inside it; that of any
 * other is where four pixels meet. */
static uint32_t distance_of_leaf(const struct steps *s, uint32_t left, uint32_t top, uint32_t side)
{
    if (side == 1)
        return 2 * (uint32_t)s->row[top + 1][left + 1] - 1;
    const uint8_t *above = &s->row[top + side / 2][left + side / 2], *below = above + MOST_WIDTH;
    return 2 * (uint32_t)lower(lower(above[0], above[1]), lower(below[0], below[1]));
}

static void read_off(const uint32_t *table, uint32_t p, uint32_t left, uint32_t top, uint32_t side,
                     const struct steps *s, uint32_t *distances)
{
    distances[p] = plain_node(table, p)[5] == 1 ? distance_of_leaf(s, left, top, side) : 0;
    if (plain_is_fork(table, p)) {
        uint32_t half = side / 2;
        for (uint32_t quadrant = 0; quadrant < 4; quadrant++)
            read_off(table, plain_son(table, p, quadrant), left + (quadrant & 1) * half, top + (quadrant >> 1) * half,
                     half, s, distances);
    }
}

static uint64_t transform(void (*pass)(struct steps *), uint32_t n, const uint32_t *table, size_t table_len,
                          uint32_t *distances, size_t distances_len)
{
    struct steps s;
    uint64_t check = plain_check(n, table, table_len);
    if (check % 256 == 1 || check % 256 == 2)
        return check;
    if (distances_len != table_len / 6)
        return 2 + 256 * 1;
    if (check % 256 != 0)
        return check;
    s.side = UINT32_C(1) << n;
    make_rim(&s);
    paint(table, 0, 0, 0, s.side, &s);
    pass(&s);
    if (plain_node(table, 0)[5] == 1)
        distances[0] = PLAIN_NONE;
    else
        read_off(table, 0, 0, 0, s.side, &s, distances);
    return 0;
}

uint64_t plain_two_pass(uint32_t n, const uint32_t *table, size_t table_len, uint32_t *distances, size_t distances_len)
{
    return transform(pass_by_pixels, n, table, table_len, distances, distances_len);
}

uint64_t plain_two_pass_rows(uint32_t n, const uint32_t *table, size_t table_len, uint32_t *distances,
                             size_t distances_len)
{
    return transform(pass_by_rows, n, table, table_len, distances, distances_len);
}
