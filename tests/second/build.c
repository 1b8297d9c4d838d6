/*
 * Building, block by block. Every block of every level is looked at pixel by
 * pixel: it is a node if it is the whole sheet, or if the block that it is a
 * quarter of has two colours. Nodes are numbered as their first pixels come when
 * quarters are taken in the order NW, NE, SW, SE at every level; of blocks that
 * begin at one pixel the larger comes first.
 */
#include "second/second.h"

enum { LEVELS = 8, MOST_SIDE = 128 };

static const uint32_t NONE = 4294967295u, FORK = 2;

/* Block (i, j) of a level: the i-th from the left and the j-th from the top. */
struct block {
    uint32_t level, i, j;
};

struct sheet {
    uint32_t n;
    const uint8_t *raster;
};

/* The number of each block that is a node. */
static uint32_t number[LEVELS][MOST_SIDE][MOST_SIDE];

static uint32_t *number_of(struct block b)
{
    return &number[b.level][b.j][b.i];
}

static uint32_t colour(const struct sheet *s, uint32_t x, uint32_t y)
{
    return s->raster[(y << s->n) + x];
}

/* The colour of all the block's pixels, or FORK where they are not alike. */
static uint32_t type_of(const struct sheet *s, struct block b)
{
    uint32_t side = UINT32_C(1) << b.level, left = b.i * side, top = b.j * side;
    for (uint32_t y = top; y < top + side; y++)
        for (uint32_t x = left; x < left + side; x++)
            if (colour(s, x, y) != colour(s, left, top))
                return FORK;
    return colour(s, left, top);
}

static struct block father_of(struct block b)
{
    struct block father = {b.level + 1, b.i / 2, b.j / 2};
    return father;
}

/* The block's quarter: 0 is NW, 1 NE, 2 SW, 3 SE. */
static struct block quarter_of(struct block b, uint32_t quadrant)
{
    struct block quarter = {b.level - 1, 2 * b.i + quadrant % 2, 2 * b.j + quadrant / 2};
    return quarter;
}

static int is_node(const struct sheet *s, struct block b)
{
    return b.level == s->n || type_of(s, father_of(b)) == FORK;
}

/* The block of this level whose first pixel is the place-th of all, as the
 * quarters are taken: the place's digits to the base 4 are the quarters. */
static struct block block_at(uint32_t place, uint32_t level)
{
    struct block b = {level, 0, 0};
    for (uint32_t digit = level; digit < LEVELS; digit++) {
        uint32_t quadrant = (place >> (2 * digit)) % 4;
        b.i += (quadrant % 2) << (digit - level);
        b.j += (quadrant / 2) << (digit - level);
    }
    return b;
}

static void write_node(const struct sheet *s, struct block b, uint32_t *words)
{
    words[0] = b.level == s->n ? NONE : *number_of(father_of(b));
    words[5] = type_of(s, b);
    for (uint32_t quadrant = 0; quadrant < 4; quadrant++)
        words[1 + quadrant] = words[5] == FORK ? *number_of(quarter_of(b, quadrant)) : NONE;
}

/* Does a block of this level begin at this place, and is it a node? */
static int begins_node(const struct sheet *s, uint32_t place, uint32_t level)
{
    return place % (UINT32_C(1) << (2 * level)) == 0 && is_node(s, block_at(place, level));
}

/* Without a table gives every node its number, with one writes its words; how
 * many nodes there are. */
static uint32_t each_node(const struct sheet *s, uint32_t *table)
{
    uint32_t count = 0;
    for (uint32_t place = 0; place < UINT32_C(1) << (2 * s->n); place++)
        for (uint32_t depth = 0; depth <= s->n; depth++)
            if (begins_node(s, place, s->n - depth)) {
                struct block b = block_at(place, s->n - depth);
                if (table == NULL)
                    *number_of(b) = count;
                else
                    write_node(s, b, table + (size_t)count * 6);
                count++;
            }
    return count;
}

uint64_t second_build(uint32_t n, const uint8_t *raster, size_t raster_len, uint32_t *table, size_t table_len)
{
    struct sheet s = {n, raster};
    if (n > 7)
        return 1;
    if (raster_len != (size_t)1 << (2 * n))
        return 2 + 256;
    for (size_t i = 0; i < raster_len; i++)
        if (raster[i] > 1)
            return 8 + 256 * (uint64_t)i;
    uint32_t count = each_node(&s, NULL);
    if (table_len < (size_t)count * 6)
        return 9 + 256 * ((uint64_t)count * 6);
    each_node(&s, table);
    return 256 * (uint64_t)count;
}
