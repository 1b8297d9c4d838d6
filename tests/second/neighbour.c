/*
 * The neighbour of a node, as document 01 has it: the square of the node's size
 * in that direction, and of the nodes with side at least the node's which
 * contain that square the smallest one; its level stands beside it.
 */
#include "second/second.h"

/* Directions count N, E, S, W, NW, NE, SW, SE. */
static struct second_square square_towards(struct second_square s, uint32_t direction)
{
    if (direction == 0 || direction == 4 || direction == 5)
        s.top -= s.side;
    if (direction == 2 || direction == 6 || direction == 7)
        s.top += s.side;
    if (direction == 3 || direction == 4 || direction == 6)
        s.left -= s.side;
    if (direction == 1 || direction == 5 || direction == 7)
        s.left += s.side;
    return s;
}

static int contains(struct second_square outer, struct second_square s)
{
    return outer.left <= s.left && s.left + s.side <= outer.left + outer.side && outer.top <= s.top &&
           s.top + s.side <= outer.top + outer.side;
}

/* Sides grow with the level, so the first node found is the smallest. */
static uint32_t smallest_containing(const struct second_cover *c, struct second_square s)
{
    for (int32_t level = s.level; level <= c->level; level++) {
        uint32_t p = c->node[level][s.top * c->side + s.left];
        if (p != 4294967295u && contains(c->square[p], s))
            return p;
    }
    return 4294967295u;
}

uint64_t second_neighbour(const struct second_cover *c, uint32_t node, uint32_t direction)
{
    if (c->check % 256 != 0)
        return c->check;
    if (node >= c->count)
        return 6 + 256 * (uint64_t)node;
    if (direction > 7)
        return 7 + 256 * (uint64_t)direction;
    struct second_square s = square_towards(c->square[node], direction);
    return second_on_sheet(c, s) ? second_found(c, smallest_containing(c, s)) : 20;
}
