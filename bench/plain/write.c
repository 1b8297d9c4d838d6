/* Writing for speed: the check, then the records, going down from the root, fork
 * by fork, four pixels at once. */
#include <string.h>

#include "plain/plain.h"

#define FORK 2

static uint8_t *write_record(uint8_t *file, uint32_t type)
{
    file[0] = 0x51;
    file[1] = 0x4e;
    file[2] = (uint8_t)type;
    return file + 3;
}

static uint32_t type_of(const uint32_t *table, uint32_t node)
{
    return table[(size_t)node * 6 + 5];
}

/* Writes the records of four pixels; the low byte of a number comes first. */
static uint8_t *write_pixels(const uint32_t *table, const uint32_t *sons, uint8_t *file)
{
    uint64_t nw = type_of(table, sons[0]), ne = type_of(table, sons[1]);
    uint64_t first = UINT64_C(0x4e51004e51004e51) | nw << 16 | ne << 40;
    uint32_t last = UINT32_C(0x004e5100) | type_of(table, sons[2]) | type_of(table, sons[3]) << 24;
    memcpy(file, &first, sizeof first);
    memcpy(file + sizeof first, &last, sizeof last);
    return file + sizeof first + sizeof last;
}

/* Writes the four blocks of this fork and gives back where the next one begins. */
static uint8_t *write_four(const uint32_t *table, uint32_t fork, uint32_t level, uint8_t *file)
{
    const uint32_t *sons = table + (size_t)fork * 6 + 1;
    if (level == 1)
        return write_pixels(table, sons, file);
    for (int quadrant = 0; quadrant < 4; quadrant++) {
        uint32_t type = type_of(table, sons[quadrant]);
        file = write_record(file, type);
        if (type == FORK)
            file = write_four(table, sons[quadrant], level - 1, file);
    }
    return file;
}

uint64_t plain_write(uint32_t n, const uint32_t *table, size_t table_len, uint8_t *file, size_t file_len)
{
    uint64_t check = plain_check(n, table, table_len);
    if (check % 256 != 0)
        return check;
    uint64_t count = check / 256, length = 5 + 3 * count;
    if (file_len < length)
        return 9 + 256 * length;
    file[0] = 0x51;
    file[1] = 0x53;
    file[2] = (uint8_t)n;
    file[3] = (uint8_t)count;
    file[4] = (uint8_t)(count >> 8);
    write_record(file + 5, table[5]);
    if (table[5] == FORK)
        write_four(table, 0, n, file + 8);
    return 256 * length;
}
