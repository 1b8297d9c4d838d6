#include "plain/plain.h"
#include "plain/search.h"

uint64_t plain_neighbour(uint32_t n, const uint32_t *table, size_t table_len, uint32_t node, uint32_t direction)
{
    uint64_t check = plain_check(n, table, table_len);
    if (check % 256 != 0)
        return check;
    if (node >= table_len / 6)
        return 6 + 256 * (uint64_t)node;
    if (direction > 7)
        return 7 + 256 * (uint64_t)direction;
    struct plain_block found = plain_search(n, table, node, direction);
    return found.node == PLAIN_NONE ? 20 : plain_found(found);
}
