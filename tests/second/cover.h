/*
 * A sheet as pixels: which node of each level covers each pixel. Made from a
 * table alone, by having every node mark the pixels of its block.
 */
#ifndef SECOND_COVER_H
#define SECOND_COVER_H

#include <stddef.h>
#include <stdint.h>

enum { SECOND_MOST_NODES = 21845, SECOND_MOST_PIXELS = 128 * 128, SECOND_LEVELS = 8 };

/* A square of pixels, on the sheet or off it, of side 2^level. */
struct second_square {
    int32_t left, top, side, level;
};

struct second_cover {
    uint64_t check; /* what the check gives back; the rest is good if its code is 0 */
    int32_t level, side;
    uint32_t count;
    uint32_t type[SECOND_MOST_NODES];
    struct second_square square[SECOND_MOST_NODES];
    /* The node of this level that covers the pixel, or 4294967295. */
    uint32_t node[SECOND_LEVELS][SECOND_MOST_PIXELS];
};

/* Checks the table and, where it is accepted, has every node mark its pixels. */
void second_cover(struct second_cover *c, uint32_t n, const uint32_t *table, size_t table_len);

/* Is the whole of this square on the sheet? */
int second_on_sheet(const struct second_cover *c, struct second_square s);

/* The leaf that holds a pixel of the sheet. */
uint32_t second_leaf_at(const struct second_cover *c, struct second_square pixel);

/* What a call gives back that has found this node, by document 02's No. 3: code
 * 0, and as value node * 8 + level, the level of the node's square. */
uint64_t second_found(const struct second_cover *c, uint32_t node);

#endif
