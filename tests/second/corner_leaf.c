/*
 * The leaf at a corner of a node, as document 01 has it: the pixel just outside
 * a side at one of its ends, and the leaf that holds that pixel; its level stands
 * beside it.
 */
#include "second/second.h"

/* Sides count N, E, S, W and corners NW, NE, SW, SE. */
static int corner_is_on_side(uint32_t side, uint32_t corner)
{
    switch (side) {
    case 0: return corner == 0 || corner == 1;
    case 1: return corner == 1 || corner == 3;
    case 2: return corner == 2 || corner == 3;
    default: return corner == 0 || corner == 2;
    }
}

/* The pixel inside the square at its corner. */
static struct second_square corner_pixel(struct second_square s, uint32_t corner)
{
    struct second_square pixel = {s.left, s.top, 1, 0};
    if (corner == 1 || corner == 3)
        pixel.left = s.left + s.side - 1;
    if (corner == 2 || corner == 3)
        pixel.top = s.top + s.side - 1;
    return pixel;
}

/* The next pixel across the side. */
static struct second_square across(struct second_square pixel, uint32_t side)
{
    switch (side) {
    case 0: pixel.top--; break;
    case 1: pixel.left++; break;
    case 2: pixel.top++; break;
    default: pixel.left--; break;
    }
    return pixel;
}

uint64_t second_corner_leaf(const struct second_cover *c, uint32_t node, uint32_t side, uint32_t corner)
{
    if (c->check % 256 != 0)
        return c->check;
    if (node >= c->count)
        return 6 + 256 * (uint64_t)node;
    if (side > 3)
        return 7 + 256 * (uint64_t)side;
    if (corner > 3 || !corner_is_on_side(side, corner))
        return 7 + 256 * (uint64_t)corner;
    struct second_square pixel = across(corner_pixel(c->square[node], corner), side);
    return second_on_sheet(c, pixel) ? second_found(c, second_leaf_at(c, pixel)) : 20;
}
