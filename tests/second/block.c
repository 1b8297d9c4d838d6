/*
 * A node's block, found from the node upwards: the root's is the whole sheet,
 * and a son's is the quarter of its father's block that the father names it for.
 */
#include "second/second.h"

static uint32_t quadrant_of(const uint32_t *table, uint32_t node, uint32_t father)
{
    for (uint32_t quadrant = 0; quadrant < 3; quadrant++)
        if (table[(size_t)father * 6 + 1 + quadrant] == node)
            return quadrant;
    return 3;
}

struct second_block second_block(uint32_t n, const uint32_t *table, uint32_t node)
{
    struct second_block sheet = {0, 0, UINT32_C(1) << n};
    if (node == 0)
        return sheet;
    uint32_t father = table[(size_t)node * 6], quadrant = quadrant_of(table, node, father);
    struct second_block block = second_block(n, table, father);
    block.side /= 2;
    if (quadrant == 1 || quadrant == 3)
        block.left += block.side;
    if (quadrant == 2 || quadrant == 3)
        block.top += block.side;
    return block;
}
