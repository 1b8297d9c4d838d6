#include "plain/plain.h"

uint64_t plain_sum(const uint32_t *table, size_t table_len)
{
    uint32_t sum = 0;
    for (size_t i = 0; i < table_len; i++)
        sum += table[i];
    return sum;
}
