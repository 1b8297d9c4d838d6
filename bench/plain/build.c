/*
 * Building for speed. Eight rows of eight pixels are gathered into one word of 64
 * bits, so that all that is smaller than such a block is found by shifts. The
 * first pass looks for bad pixels, counts the forks and keeps each gathered block,
 * and the type of each block of eight pixels' side and above; the second writes
 * the nodes from the top, fork by fork.
 */
#include <string.h>

#include "plain/bits.h"
#include "plain/pixels.h"
#include "plain/plain.h"

#define NONE UINT32_MAX
#define FORK 2

enum { GATHERED = 3, LEVELS = 8 };

/* A row of eight black pixels; the corners of the blocks of two and of four
 * pixels' side in a gathered one. */
static const uint64_t BLACK_ROW = UINT64_C(0x0101010101010101);
static const uint64_t PAIRS = UINT64_C(0x0055005500550055), FOURS = UINT64_C(0x0000001100000011);

struct building {
    const uint8_t *raster;
    uint32_t n, number;
    uint32_t *table;
    uint64_t gathered[256];
    uint8_t type[256 + 64 + 16 + 4 + 1];
};

/* Where the types of a level's blocks begin: the gathered ones first. */
static const uint32_t type_start[LEVELS + 1] = {0, 0, 0, 0, 256, 320, 336, 340, 341};

static uint8_t *type_at(struct building *b, uint32_t level, uint32_t i, uint32_t j)
{
    return &b->type[type_start[level] + (j << (b->n - level)) + i];
}

/* At the corner of each block of two pixels' side: are its pixels unlike? */
static uint64_t unlike_pairs(uint64_t bits)
{
    return ((bits ^ bits >> 1) | (bits ^ bits >> 8) | (bits ^ bits >> 9)) & PAIRS;
}

/* The same for four pixels' side; 'pairs' is what is known of the smaller. */
static uint64_t unlike_fours(uint64_t bits, uint64_t pairs)
{
    uint64_t within = pairs | pairs >> 2 | pairs >> 16 | pairs >> 18;
    return (within | (bits ^ bits >> 2) | (bits ^ bits >> 16) | (bits ^ bits >> 18)) & FOURS;
}

/* Gathers a block and keeps its type; gives its forks, and puts the bits of all
 * its bytes into 'seen'. Bit 8y + x is the pixel (x, y) of the block. */
static uint32_t gather(struct building *b, uint32_t i, uint32_t j, uint64_t *seen)
{
    const uint8_t *from = b->raster + ((size_t)j << (GATHERED + b->n)) + (i << GATHERED);
    uint64_t row[8], any = 0, all = UINT64_MAX, bits = 0;
    for (int y = 0; y < 8; y++) {
        memcpy(&row[y], from + ((size_t)y << b->n), sizeof row[y]);
        any |= row[y];
        all &= row[y];
    }
    *seen |= any;
    *type_at(b, GATHERED, i, j) = any == 0 ? 0 : all == BLACK_ROW ? 1 : FORK;
    if (any == 0 || all == BLACK_ROW)
        return 0;
    for (int y = 0; y < 8; y++)
        bits |= (row[y] * UINT64_C(0x0102040810204080) >> 56) << (8 * y);
    b->gathered[(j << (b->n - GATHERED)) + i] = bits;
    uint64_t pairs = unlike_pairs(bits);
    return 1 + plain_bits_set(pairs | unlike_fours(bits, pairs) << 1);
}

/* The type of a block from those of its quarters. */
static uint32_t joined_type(struct building *b, uint32_t level, uint32_t i, uint32_t j)
{
    const uint8_t *upper = type_at(b, level - 1, 2 * i, 2 * j), *lower = type_at(b, level - 1, 2 * i, 2 * j + 1);
    return upper[0] == upper[1] && upper[0] == lower[0] && upper[0] == lower[1] ? upper[0] : FORK;
}

static uint32_t count_forks(struct building *b, uint64_t *seen)
{
    uint32_t forks = 0, across = UINT32_C(1) << (b->n - GATHERED);
    for (uint32_t j = 0; j < across; j++)
        for (uint32_t i = 0; i < across; i++)
            forks += gather(b, i, j, seen);
    for (uint32_t level = GATHERED + 1; level <= b->n; level++) {
        across /= 2;
        for (uint32_t j = 0; j < across; j++)
            for (uint32_t i = 0; i < across; i++)
                forks += (*type_at(b, level, i, j) = (uint8_t)joined_type(b, level, i, j)) == FORK;
    }
    return forks;
}

static inline void write_leaf(struct building *b, uint32_t father, uint32_t type)
{
    uint32_t *words = b->table + (size_t)b->number++ * 6;
    words[0] = father;
    words[1] = words[2] = words[3] = words[4] = NONE;
    words[5] = type;
}

/* Writes a block of two pixels' side. */
static inline void write_pair(struct building *b, uint32_t father, uint64_t bits, uint64_t unlike)
{
    if ((unlike & 1) == 0) {
        write_leaf(b, father, bits & 1);
        return;
    }
    plain_write_pixels(b->table, b->number, father, (bits & 3) | (bits >> 6 & 12));
    b->number += 5;
}

/* Writes a block of four pixels' side. */
static void write_four(struct building *b, uint32_t father, uint64_t bits, uint64_t pairs, uint64_t unlike)
{
    uint32_t me = b->number, *words = b->table + (size_t)me * 6;
    if ((unlike & 1) == 0) {
        write_leaf(b, father, bits & 1);
        return;
    }
    b->number++;
    words[0] = father;
    words[5] = FORK;
    for (uint32_t q = 0; q < 4; q++) {
        uint32_t shift = q / 2 * 16 + q % 2 * 2;
        words[1 + q] = b->number;
        write_pair(b, me, bits >> shift, pairs >> shift);
    }
}

static void write_gathered(struct building *b, uint32_t me, uint32_t *words, uint64_t bits)
{
    uint64_t pairs = unlike_pairs(bits), fours = unlike_fours(bits, pairs);
    for (uint32_t q = 0; q < 4; q++) {
        uint32_t shift = q / 2 * 32 + q % 2 * 4;
        words[1 + q] = b->number;
        write_four(b, me, bits >> shift, pairs >> shift, fours >> shift);
    }
}

static void write_fork(struct building *b, uint32_t father, uint32_t level, uint32_t i, uint32_t j)
{
    uint32_t me = b->number++, *words = b->table + (size_t)me * 6;
    words[0] = father;
    words[5] = FORK;
    if (level == GATHERED) {
        write_gathered(b, me, words, b->gathered[(j << (b->n - GATHERED)) + i]);
        return;
    }
    for (uint32_t q = 0; q < 4; q++) {
        uint32_t son_i = 2 * i + q % 2, son_j = 2 * j + q / 2, type = *type_at(b, level - 1, son_i, son_j);
        words[1 + q] = b->number;
        if (type == FORK)
            write_fork(b, me, level - 1, son_i, son_j);
        else
            write_leaf(b, me, type);
    }
}

/* The pixels of a sheet below level 3, gathered; the rest is 0. */
static uint64_t gathered_small(const uint8_t *raster, uint32_t n)
{
    uint64_t bits = 0;
    for (uint32_t i = 0; i < UINT32_C(1) << (2 * n); i++)
        bits |= (uint64_t)raster[i] << ((i >> n) * 8 + i % (UINT32_C(1) << n));
    return bits;
}

static int all_are_pixels(const uint8_t *raster, size_t raster_len)
{
    uint8_t seen = 0;
    for (size_t i = 0; i < raster_len; i++)
        seen |= raster[i];
    return seen < 2;
}

static uint64_t first_bad_pixel(const uint8_t *raster)
{
    uint64_t i = 0;
    while (raster[i] < 2)
        i++;
    return 8 + 256 * i;
}

static uint64_t build_small(struct building *b, size_t raster_len, size_t table_len)
{
    if (!all_are_pixels(b->raster, raster_len))
        return first_bad_pixel(b->raster);
    uint64_t bits = gathered_small(b->raster, b->n), pairs = unlike_pairs(bits);
    uint64_t fours = unlike_fours(bits, pairs);
    uint32_t forks = b->n == 0 ? 0 : b->n == 1 ? pairs & 1 : plain_bits_set(pairs) + (fours & 1);
    uint64_t needed = 6 * (1 + 4 * (uint64_t)forks);
    if (table_len < needed)
        return 9 + 256 * needed;
    if (b->n == 2)
        write_four(b, NONE, bits, pairs, fours);
    else
        write_pair(b, NONE, bits, b->n == 0 ? 0 : pairs);
    return 256 * (needed / 6);
}

static uint64_t build_large(struct building *b, size_t table_len)
{
    uint64_t seen = 0, needed = 6 * (1 + 4 * (uint64_t)count_forks(b, &seen));
    if ((seen & ~BLACK_ROW) != 0)
        return first_bad_pixel(b->raster);
    if (table_len < needed)
        return 9 + 256 * needed;
    if (b->type[type_start[b->n]] == FORK)
        write_fork(b, NONE, b->n, 0, 0);
    else
        write_leaf(b, NONE, b->type[type_start[b->n]]);
    return 256 * (needed / 6);
}

uint64_t plain_build(uint32_t n, const uint8_t *raster, size_t raster_len, uint32_t *table, size_t table_len)
{
    struct building b;
    if (n > 7)
        return 1;
    if (raster_len != (size_t)1 << (2 * n))
        return 2 + 256;
    b.raster = raster;
    b.n = n;
    b.number = 0;
    b.table = table;
    return n < GATHERED ? build_small(&b, raster_len, table_len) : build_large(&b, table_len);
}
