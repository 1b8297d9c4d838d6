/*
 * Reading for speed: one pass over the records, fork by fork, accepts a sound
 * file and counts, a second one writes the nodes; four pixels are taken at once.
 * Only if the first fails does an ordered pass run, to name the first fault: of
 * each open fork it keeps the sons still to come, and which types have come, as
 * bits.
 */
#include <string.h>

#include "plain/pixels.h"
#include "plain/plain.h"

#define NONE UINT32_MAX
#define FORK 2

enum { HEADER_SIZE = 5, RECORD_SIZE = 3, DEPTHS = 9 };

static uint64_t at_place(uint64_t code, size_t place)
{
    return code + 256 * (uint64_t)place;
}

static uint64_t header_fault(const uint8_t *file, size_t len)
{
    if (len > 0 && file[0] != 0x51)
        return at_place(12, 0);
    if (len > 1 && file[1] != 0x53)
        return at_place(12, 1);
    if (len > 2 && file[2] > 7)
        return at_place(1, 2);
    return len < HEADER_SIZE ? at_place(13, len) : 0;
}

static int is_record(const uint8_t *file, size_t len, size_t at)
{
    return len - at >= RECORD_SIZE && file[at] == 0x51 && file[at + 1] == 0x4e && file[at + 2] <= FORK;
}

/* The fault of a record that is none. */
static uint64_t record_fault(const uint8_t *file, size_t len, size_t at)
{
    if (len - at > 0 && file[at] != 0x51)
        return at_place(12, at);
    if (len - at > 1 && file[at + 1] != 0x4e)
        return at_place(12, at + 1);
    return len - at < RECORD_SIZE ? at_place(13, len) : at_place(12, at + 2);
}

/* The first fault in the block after the header, which has one. */
static uint64_t block_fault(const uint8_t *file, size_t len)
{
    uint8_t to_come[DEPTHS] = {1}, seen[DEPTHS] = {4};
    uint32_t depth = 0, n = file[2];
    size_t at = HEADER_SIZE;
    for (;; at += RECORD_SIZE) {
        if (!is_record(file, len, at))
            return record_fault(file, len, at);
        uint32_t type = file[at + 2];
        to_come[depth]--;
        seen[depth] |= (uint8_t)(1u << type);
        if (type == FORK) {
            if (depth == n)
                return at_place(4, at + 2);
            depth++;
            to_come[depth] = 4;
            seen[depth] = 0;
            continue;
        }
        if (to_come[depth] == 0 && (seen[depth] == 1 || seen[depth] == 2))
            return at_place(5, at + 2);
        while (to_come[depth] == 0)
            depth--;
    }
}

/* The records of four pixels; the low byte of a number comes first. */
struct four {
    uint64_t first;
    uint32_t last;
};

static inline struct four four_at(const uint8_t *file, size_t at)
{
    struct four f;
    memcpy(&f.first, file + at, sizeof f.first);
    memcpy(&f.last, file + at + sizeof f.first, sizeof f.last);
    return f;
}

/* Which of them are black, as bits. */
static inline uint32_t colours_of(struct four f)
{
    return (f.first >> 16 & 1) | (f.first >> 39 & 2) | (f.last & 1) << 2 | (f.last >> 21 & 8);
}

/* The place after the records of four pixels that are not all alike, or 0. */
static inline size_t end_of_pixels(const uint8_t *file, size_t len, size_t at)
{
    if (len - at < 4 * RECORD_SIZE)
        return 0;
    struct four f = four_at(file, at);
    if ((f.first & ~UINT64_C(0x0000010000010000)) != UINT64_C(0x4e51004e51004e51) ||
        (f.last & ~UINT32_C(0x01000001)) != UINT32_C(0x004e5100))
        return 0;
    uint32_t colours = colours_of(f);
    return colours == 0 || colours == 15 ? 0 : at + 4 * RECORD_SIZE;
}

/* The place after four sound blocks of this level, or 0. */
static size_t end_of_four(const uint8_t *file, size_t len, uint32_t level, size_t at)
{
    uint32_t seen = 0;
    if (level == 0)
        return end_of_pixels(file, len, at);
    for (int quadrant = 0; quadrant < 4; quadrant++) {
        if (!is_record(file, len, at))
            return 0;
        uint32_t type = file[at + 2];
        at += RECORD_SIZE;
        seen |= 1u << type;
        if (type == FORK && (at = end_of_four(file, len, level - 1, at)) == 0)
            return 0;
    }
    return seen == 1 || seen == 2 ? 0 : at;
}

/* The place after the block behind the header, if it is sound, or 0. */
static size_t end_of_block(const uint8_t *file, size_t len)
{
    if (!is_record(file, len, HEADER_SIZE))
        return 0;
    if (file[HEADER_SIZE + 2] != FORK)
        return HEADER_SIZE + RECORD_SIZE;
    return file[2] == 0 ? 0 : end_of_four(file, len, file[2] - 1u, HEADER_SIZE + RECORD_SIZE);
}

static size_t place_of(uint32_t node)
{
    return HEADER_SIZE + (size_t)node * RECORD_SIZE;
}

static uint32_t type_of(const uint8_t *file, uint32_t node)
{
    return file[place_of(node) + 2];
}

static void write_leaf(uint32_t *words, uint32_t father, uint32_t type)
{
    words[0] = father;
    words[1] = words[2] = words[3] = words[4] = NONE;
    words[5] = type;
}

/* Writes a fork of this level and all below it, and gives back the next node. */
static uint32_t write_fork(const uint8_t *file, uint32_t *table, uint32_t level, uint32_t fork, uint32_t father)
{
    uint32_t *words = table + (size_t)fork * 6, next = fork + 1;
    if (level == 1) {
        plain_write_pixels(table, fork, father, colours_of(four_at(file, place_of(next))));
        return next + 4;
    }
    words[0] = father;
    words[5] = FORK;
    for (int quadrant = 0; quadrant < 4; quadrant++) {
        uint32_t type = type_of(file, next);
        words[1 + quadrant] = next;
        if (type == FORK)
            next = write_fork(file, table, level - 1, next, fork);
        else
            write_leaf(table + (size_t)next++ * 6, fork, type);
    }
    return next;
}

static void write_nodes(const uint8_t *file, uint32_t *table)
{
    uint32_t type = type_of(file, 0);
    if (type == FORK)
        write_fork(file, table, file[2], 0, NONE);
    else
        write_leaf(table, NONE, type);
}

uint64_t plain_read(const uint8_t *file, size_t file_len, uint32_t *table, size_t table_len)
{
    uint64_t fault = header_fault(file, file_len);
    if (fault != 0)
        return fault;
    size_t end = end_of_block(file, file_len);
    if (end == 0)
        return block_fault(file, file_len);
    uint32_t count = (uint32_t)((end - HEADER_SIZE) / RECORD_SIZE);
    if ((file[3] | (uint32_t)file[4] << 8) != count)
        return at_place(14, 3);
    if (end < file_len)
        return at_place(14, end);
    if (table_len < (size_t)count * 6)
        return 9 + 256 * ((uint64_t)count * 6);
    write_nodes(file, table);
    return 256 * (8 * (uint64_t)count + file[2]);
}
