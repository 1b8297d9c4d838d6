#include "plain/plain.h"
#include "plain/search.h"

#if defined(__clang__)
#pragma STDC FP_CONTRACT OFF
#endif

static int is_near(double number)
{
    return number >= -16777216.0 && number <= 16777216.0;
}

/* The left column and the top row of a node, 1 for a side of the node, and its
 * depth, from the quadrants on the way up to the root. */
struct climb {
    uint32_t left, top, depth;
};

static struct climb climb_from(const uint32_t *table, uint32_t p)
{
    struct climb c = {0, 0, 0};
    for (uint32_t father; (father = plain_node(table, p)[0]) != PLAIN_NONE; p = father, c.depth++) {
        uint32_t quadrant = plain_quadrant(table, father, p);
        c.left |= (quadrant & 1) << c.depth;
        c.top |= (quadrant >> 1) << c.depth;
    }
    return c;
}

uint64_t plain_centre(uint32_t n, const uint32_t *table, size_t table_len, uint32_t node, double east, double north,
                      double step, double *place, size_t place_len)
{
    uint64_t check = plain_check(n, table, table_len);
    if (check % 256 != 0)
        return check;
    if (node >= table_len / 6)
        return 6 + 256 * (uint64_t)node;
    if (!is_near(east))
        return 11;
    if (!is_near(north))
        return 11 + 256 * 1;
    if (!(step >= 1.0 / 1024 && step <= 16384.0))
        return 11 + 256 * 2;
    if (place_len < 2)
        return 9 + 256 * 2;
    struct climb c = climb_from(table, node);
    uint32_t side = UINT32_C(1) << (n - c.depth);
    place[0] = east + (double)((2 * c.left + 1) * side - 1) / 2 * step;
    place[1] = north - (double)((2 * c.top + 1) * side - 1) / 2 * step;
    return 0;
}
