/*
 * The leaf diagonally beyond a corner of a node, as document 01 has it: the
 * pixel there, and the leaf that holds it; its level stands beside it.
 */
#include "second/second.h"

/* Corners count NW, NE, SW, SE. */
static struct second_square pixel_beyond(struct second_square s, uint32_t corner)
{
    struct second_square pixel = {s.left - 1, s.top - 1, 1, 0};
    if (corner == 1 || corner == 3)
        pixel.left = s.left + s.side;
    if (corner == 2 || corner == 3)
        pixel.top = s.top + s.side;
    return pixel;
}

uint64_t second_diagonal_leaf(const struct second_cover *c, uint32_t node, uint32_t corner)
{
    if (c->check % 256 != 0)
        return c->check;
    if (node >= c->count)
        return 6 + 256 * (uint64_t)node;
    if (corner > 3)
        return 7 + 256 * (uint64_t)corner;
    struct second_square pixel = pixel_beyond(c->square[node], corner);
    return second_on_sheet(c, pixel) ? second_found(c, second_leaf_at(c, pixel)) : 20;
}
