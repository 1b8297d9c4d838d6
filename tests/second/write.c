/*
 * Writing a sheet file from where the nodes lie, whatever their numbers: the
 * records stand as the blocks' first pixels come when quarters are taken in the
 * order NW, NE, SW, SE at every level; of blocks that begin at one pixel the
 * larger comes first.
 */
#include <stdlib.h>

#include "second/second.h"

enum { MOST_NODES = 21845, MOST_LEVEL = 7 };

struct record {
    uint32_t place, side;
    uint8_t type;
};

/* Where a pixel comes as the quarters are taken. */
static uint32_t place_of(uint32_t x, uint32_t y)
{
    uint32_t place = 0;
    for (uint32_t bit = 0; bit < MOST_LEVEL; bit++)
        place += ((x >> bit) % 2 + 2 * ((y >> bit) % 2)) << (2 * bit);
    return place;
}

static int as_they_stand(const void *a, const void *b)
{
    const struct record *r = a, *s = b;
    if (r->place != s->place)
        return r->place < s->place ? -1 : 1;
    return r->side > s->side ? -1 : 1;
}

static void write_file(uint32_t n, const struct record *records, uint32_t count, uint8_t *file)
{
    uint8_t header[] = {0x51, 0x53, (uint8_t)n, (uint8_t)(count % 256), (uint8_t)(count / 256)};
    for (int i = 0; i < 5; i++)
        *file++ = header[i];
    for (uint32_t i = 0; i < count; i++) {
        *file++ = 0x51;
        *file++ = 0x4e;
        *file++ = records[i].type;
    }
}

uint64_t second_write(uint32_t n, const uint32_t *table, size_t table_len, uint8_t *file, size_t file_len)
{
    static struct record records[MOST_NODES];
    int rule;
    uint64_t check = second_check(n, table, table_len, &rule);
    if (check % 256 != 0)
        return check;
    uint32_t count = (uint32_t)(table_len / 6);
    uint64_t length = 5 + 3 * (uint64_t)count;
    if (file_len < length)
        return 9 + 256 * length;
    for (uint32_t p = 0; p < count; p++) {
        struct second_block b = second_block(n, table, p);
        struct record r = {place_of(b.left, b.top), b.side, (uint8_t)table[p * 6 + 5]};
        records[p] = r;
    }
    qsort(records, count, sizeof *records, as_they_stand);
    write_file(n, records, count, file);
    return 256 * length;
}
