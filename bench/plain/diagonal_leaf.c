#include "plain/plain.h"
#include "plain/search.h"

uint64_t plain_diagonal_leaf(uint32_t n, const uint32_t *table, size_t table_len, uint32_t node, uint32_t corner)
{
    uint64_t check = plain_check(n, table, table_len);
    if (check % 256 != 0)
        return check;
    if (node >= table_len / 6)
        return 6 + 256 * (uint64_t)node;
    if (corner > 3)
        return 7 + 256 * (uint64_t)corner;
    struct plain_block found = plain_search(n, table, node, 4 + corner);
    return found.node == PLAIN_NONE ? 20 : plain_found(plain_leaf_in_corner(table, found, corner ^ 3));
}
