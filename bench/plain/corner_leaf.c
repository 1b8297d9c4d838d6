#include "plain/plain.h"
#include "plain/search.h"

uint64_t plain_corner_leaf(uint32_t n, const uint32_t *table, size_t table_len, uint32_t node, uint32_t side,
                           uint32_t corner)
{
    uint64_t check = plain_check(n, table, table_len);
    if (check % 256 != 0)
        return check;
    if (node >= table_len / 6)
        return 6 + 256 * (uint64_t)node;
    if (side > 3)
        return 7 + 256 * (uint64_t)side;
    if (corner > 3 || ((corner ^ plain_leaving(side)) & plain_crossed(side)) != 0)
        return 7 + 256 * (uint64_t)corner;
    struct plain_block found = plain_search(n, table, node, side);
    if (found.node == PLAIN_NONE)
        return 20;
    return plain_found(plain_leaf_in_corner(table, found, corner ^ plain_crossed(side)));
}
