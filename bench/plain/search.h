/*
 * The search for a neighbour in an accepted table, for speed. Quadrant bit 0 is
 * east and bit 1 south; a direction crosses a vertical side, a horizontal one,
 * or both, and each crossing is open until an ancestor is met on whose other
 * half the way goes on.
 */
#ifndef PLAIN_SEARCH_H
#define PLAIN_SEARCH_H

#include <stdint.h>

#define PLAIN_NONE UINT32_MAX

/* A node and its level; node PLAIN_NONE is no block at all. */
struct plain_block {
    uint32_t node, level;
};

static inline const uint32_t *plain_node(const uint32_t *table, uint32_t p)
{
    return table + (uint64_t)p * 6;
}

static inline uint32_t plain_is_fork(const uint32_t *table, uint32_t p)
{
    return plain_node(table, p)[5] == 2;
}

static inline uint32_t plain_son(const uint32_t *table, uint32_t p, uint32_t quadrant)
{
    return plain_node(table, p)[1 + quadrant];
}

static inline uint32_t plain_quadrant(const uint32_t *table, uint32_t father, uint32_t p)
{
    const uint32_t *sons = plain_node(table, father) + 1;
    return sons[0] == p ? 0 : sons[1] == p ? 1 : sons[2] == p ? 2 : 3;
}

/* The bits that a direction crosses, and the half that it leaves the block by. */
static inline uint32_t plain_crossed(uint32_t direction)
{
    static const uint32_t crossed[8] = {2, 1, 2, 1, 3, 3, 3, 3};
    return crossed[direction];
}

static inline uint32_t plain_leaving(uint32_t direction)
{
    static const uint32_t leaving[8] = {0, 1, 2, 0, 0, 1, 2, 3};
    return leaving[direction];
}

/* The neighbour, or PLAIN_NONE off the sheet. The level is counted from the root:
 * the links up from where the way turns, and those back down. */
static inline struct plain_block plain_search(uint32_t n, const uint32_t *table, uint32_t p, uint32_t direction)
{
    uint32_t open = plain_crossed(direction), leaving = plain_leaving(direction), way = 0, links = 0;
    for (; open != 0; links++) {
        uint32_t father = plain_node(table, p)[0];
        if (father == PLAIN_NONE)
            return (struct plain_block){PLAIN_NONE, 0};
        uint32_t quadrant = plain_quadrant(table, father, p);
        way = way << 2 | (quadrant ^ open);
        open &= ~(quadrant ^ leaving);
        p = father;
    }
    struct plain_block b = {p, n};
    while ((p = plain_node(table, p)[0]) != PLAIN_NONE)
        b.level--;
    for (; links > 0 && plain_is_fork(table, b.node); links--, way >>= 2, b.level--)
        b.node = plain_son(table, b.node, way & 3);
    return b;
}

/* From a block down to its leaf in one corner. */
static inline struct plain_block plain_leaf_in_corner(const uint32_t *table, struct plain_block b, uint32_t corner)
{
    for (; plain_is_fork(table, b.node); b.level--)
        b.node = plain_son(table, b.node, corner);
    return b;
}

/* The number given back for a block that is found. */
static inline uint64_t plain_found(struct plain_block b)
{
    return 256 * (8 * (uint64_t)b.node + b.level);
}

#endif
