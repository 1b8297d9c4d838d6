/*
 * The chessboard distance by document 001's method, as the library has it: for each black leaf its
 * eight neighbours, and under the grey ones the nearest quarters first. Gaps
 * are whole pixels between the leaf's border and a white block.
 */
#include "plain/plain.h"
#include "plain/search.h"

enum { WHITE = 0, BLACK = 1, EAST = 1, SOUTH = 2 };

static uint32_t type_of(const uint32_t *table, uint32_t p)
{
    return plain_node(table, p)[5];
}

/* The gap from one side of block p, the one that quadrants 'near' and its
 * brother along that side lie on, to the nearest white below p; 'least' if
 * that is not smaller. The gap is 'bound' or more, and p's side is 2 * half. */
static uint32_t gap_from_side(const uint32_t *table, uint32_t p, uint32_t near, uint32_t across, uint32_t half,
                              uint32_t bound, uint32_t least)
{
    if (bound >= least || type_of(table, p) == BLACK)
        return least;
    if (type_of(table, p) == WHITE)
        return bound;
    uint32_t first = near, second = near ^ 3 ^ across;
    if (type_of(table, plain_son(table, p, first)) == BLACK && type_of(table, plain_son(table, p, second)) == BLACK) {
        first ^= across;
        second ^= across;
        bound += half;
    }
    least = gap_from_side(table, plain_son(table, p, first), near, across, half / 2, bound, least);
    return gap_from_side(table, plain_son(table, p, second), near, across, half / 2, bound, least);
}

/* The same from the corner of p in quadrant 'near'. */
static uint32_t gap_from_corner(const uint32_t *table, uint32_t p, uint32_t near, uint32_t half, uint32_t bound,
                                uint32_t least)
{
    if (bound >= least || type_of(table, p) == BLACK)
        return least;
    if (type_of(table, p) == WHITE)
        return bound;
    least = gap_from_corner(table, plain_son(table, p, near), near, half / 2, bound, least);
    least = gap_from_side(table, plain_son(table, p, near ^ EAST), near, EAST, half / 2, bound + half, least);
    least = gap_from_side(table, plain_son(table, p, near ^ SOUTH), near, SOUTH, half / 2, bound + half, least);
    return gap_from_corner(table, plain_son(table, p, near ^ 3), near, half / 2, bound + half, least);
}

/* The directions for a leaf in each quadrant: its three brothers first, which
 * are nearest in the tree and not all black; then the sides and the corners. */
static const uint8_t order[4][8] = {
    {1, 2, 7, 0, 3, 4, 5, 6}, {3, 2, 6, 0, 1, 4, 5, 7}, {0, 1, 5, 2, 3, 4, 6, 7}, {0, 3, 4, 1, 2, 5, 6, 7}};

/* The neighbour of a block whose level is known, or PLAIN_NONE off the sheet: the
 * level is one more for each link up that is not followed back down. */
static struct plain_block neighbour(const uint32_t *table, struct plain_block b, uint32_t direction)
{
    uint32_t open = plain_crossed(direction), leaving = plain_leaving(direction);
    uint32_t p = b.node, way = 0, links = 0;
    for (; open != 0; links++) {
        uint32_t father = plain_node(table, p)[0];
        if (father == PLAIN_NONE)
            return (struct plain_block){PLAIN_NONE, 0};
        uint32_t quadrant = plain_quadrant(table, father, p);
        way = way << 2 | (quadrant ^ open);
        open &= ~(quadrant ^ leaving);
        p = father;
    }
    for (; links > 0 && plain_is_fork(table, p); links--, way >>= 2)
        p = plain_son(table, p, way & 3);
    return (struct plain_block){p, b.level + links};
}

static uint32_t distance_of_leaf(const uint32_t *table, struct plain_block leaf, uint32_t quadrant)
{
    uint32_t side = UINT32_C(1) << leaf.level, least = side;
    for (uint32_t i = 0; i < 8 && least > 0; i++) {
        uint32_t direction = order[quadrant][i];
        struct plain_block found = neighbour(table, leaf, direction);
        uint32_t crossed = plain_crossed(direction), near = plain_leaving(direction) ^ crossed;
        uint32_t half = (UINT32_C(1) << found.level) / 2;
        if (found.node == PLAIN_NONE)
            continue;
        least = crossed == 3 ? gap_from_corner(table, found.node, near, half, 0, least)
                             : gap_from_side(table, found.node, near, crossed, half, 0, least);
    }
    return side + 2 * least;
}

static void distances_below(const uint32_t *table, uint32_t p, uint32_t quadrant, uint32_t level, uint32_t *distances)
{
    distances[p] = 0;
    if (type_of(table, p) == BLACK)
        distances[p] = distance_of_leaf(table, (struct plain_block){p, level}, quadrant);
    else if (type_of(table, p) != WHITE)
        for (uint32_t son = 0; son < 4; son++)
            distances_below(table, plain_son(table, p, son), son, level - 1, distances);
}

uint64_t plain_distance_in_tree(uint32_t n, const uint32_t *table, size_t table_len, uint32_t *distances,
                                size_t distances_len)
{
    uint64_t check = plain_check(n, table, table_len);
    if (check % 256 == 1 || check % 256 == 2)
        return check;
    if (distances_len != table_len / 6)
        return 2 + 256 * 1;
    if (check % 256 != 0)
        return check;
    if (type_of(table, 0) == BLACK)
        distances[0] = PLAIN_NONE;
    else
        distances_below(table, 0, 0, n, distances);
    return 0;
}
