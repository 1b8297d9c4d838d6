/*
 * The library with one fault, to see that the outside tests find it. FAULT is the
 * number of the fault; the call that has it stands before the library's own, which
 * is then called sound. Most faults show in some cases alone.
 */
#include <stddef.h>

#include "sheet.h"

#if FAULT == 1 /* check: a fork that is too deep is let through */
uint64_t sound(uint32_t n, const uint32_t *table, size_t table_len);
uint64_t sheet_check(uint32_t n, const uint32_t *table, size_t table_len)
{
    uint64_t answer = sound(n, table, table_len);
    return sheet_code(answer) == SHEET_TOO_DEEP ? 256 * (uint64_t)(table_len / SHEET_NODE_WORDS) : answer;
}

#elif FAULT == 2 /* build: a word beyond the last node is written */
uint64_t sound(uint32_t n, const uint8_t *raster, size_t raster_len, uint32_t *table, size_t table_len);
uint64_t sheet_build(uint32_t n, const uint8_t *raster, size_t raster_len, uint32_t *table, size_t table_len)
{
    uint64_t answer = sound(n, raster, raster_len, table, table_len);
    if (sheet_code(answer) == SHEET_OK && table_len > sheet_value(answer) * SHEET_NODE_WORDS)
        table[sheet_value(answer) * SHEET_NODE_WORDS] = 0;
    return answer;
}

#elif FAULT == 3 /* decode: the last pixel is not written at level 3 */
uint64_t sound(uint32_t n, const uint32_t *table, size_t table_len, uint8_t *raster, size_t raster_len);
uint64_t sheet_decode(uint32_t n, const uint32_t *table, size_t table_len, uint8_t *raster, size_t raster_len)
{
    uint8_t old = raster_len == 64 ? raster[63] : 0;
    uint64_t answer = sound(n, table, table_len, raster, raster_len);
    if (raster_len == 64)
        raster[63] = old;
    return answer;
}

#elif FAULT == 4 /* neighbour: the level of a neighbour four times as large is one too low */
uint64_t sound(uint32_t n, const uint32_t *table, size_t table_len, uint32_t node, uint32_t direction);
uint64_t sheet_neighbour(uint32_t n, const uint32_t *table, size_t table_len, uint32_t node, uint32_t direction)
{
    uint64_t answer = sound(n, table, table_len, node, direction);
    uint32_t depth = 0;
    if (sheet_code(answer) != SHEET_OK)
        return answer;
    for (uint32_t at = node; at != 0; at = table[(size_t)at * SHEET_NODE_WORDS])
        depth++;
    return sheet_level(answer) >= n - depth + 2 ? answer - 256 : answer;
}

#elif FAULT == 5 /* corner_leaf: on side W the corner is taken at the other end */
uint64_t sound(uint32_t n, const uint32_t *table, size_t table_len, uint32_t node, uint32_t side, uint32_t corner);
uint64_t sheet_corner_leaf(uint32_t n, const uint32_t *table, size_t table_len, uint32_t node, uint32_t side,
                           uint32_t corner)
{
    int turned = side == SHEET_W && (corner == SHEET_QUADRANT_NW || corner == SHEET_QUADRANT_SW);
    return sound(n, table, table_len, node, side, turned ? 2 - corner : corner);
}

#elif FAULT == 6 /* diagonal_leaf: off the sheet the value is the node */
uint64_t sound(uint32_t n, const uint32_t *table, size_t table_len, uint32_t node, uint32_t corner);
uint64_t sheet_diagonal_leaf(uint32_t n, const uint32_t *table, size_t table_len, uint32_t node, uint32_t corner)
{
    uint64_t answer = sound(n, table, table_len, node, corner);
    return answer == SHEET_NO_BLOCK ? answer + 256 * (uint64_t)node : answer;
}

#elif FAULT == 7 /* distance: a word of the table is changed */
uint64_t sound(uint32_t n, const uint32_t *table, size_t table_len, uint32_t *distances, size_t distances_len);
uint64_t sheet_distance(uint32_t n, const uint32_t *table, size_t table_len, uint32_t *distances, size_t distances_len)
{
    uint64_t answer = sound(n, table, table_len, distances, distances_len);
    if (answer == SHEET_OK && table_len >= 54)
        ((uint32_t *)(uintptr_t)table)[53] ^= 1;
    return answer;
}

#elif FAULT == 8 /* ponds: the third pond's last column is one too high */
uint64_t sound(uint32_t n, const uint32_t *table, size_t table_len, uint32_t *numbers, size_t numbers_len,
               uint32_t *reg, size_t reg_len);
uint64_t sheet_ponds(uint32_t n, const uint32_t *table, size_t table_len, uint32_t *numbers, size_t numbers_len,
                     uint32_t *reg, size_t reg_len)
{
    uint64_t answer = sound(n, table, table_len, numbers, numbers_len, reg, reg_len);
    if (sheet_code(answer) == SHEET_OK && sheet_value(answer) >= 3)
        reg[2 * SHEET_POND_WORDS + SHEET_LAST_COLUMN_WORD]++;
    return answer;
}

#elif FAULT == 9 /* write: a refusal for want of room has already written the mark */
uint64_t sound(uint32_t n, const uint32_t *table, size_t table_len, uint8_t *file, size_t file_len);
uint64_t sheet_write(uint32_t n, const uint32_t *table, size_t table_len, uint8_t *file, size_t file_len)
{
    uint64_t answer = sound(n, table, table_len, file, file_len);
    if (sheet_code(answer) == SHEET_NO_ROOM && file_len > 0)
        file[0] = 0x51;
    return answer;
}

#elif FAULT == 10 /* centre: an east one bit above its limit is let through */
uint64_t sound(uint32_t n, const uint32_t *table, size_t table_len, uint32_t node, double east, double north,
               double step, double *place, size_t place_len);
uint64_t sheet_centre(uint32_t n, const uint32_t *table, size_t table_len, uint32_t node, double east, double north,
                      double step, double *place, size_t place_len)
{
    double let_in = east == 16777216 + 0x1p-28 ? 16777216 : east;
    return sound(n, table, table_len, node, let_in, north, step, place, place_len);
}

#elif FAULT == 11 /* read: the place of a needless fork far into the file is one too high */
uint64_t sound(const uint8_t *file, size_t file_len, uint32_t *table, size_t table_len);
uint64_t sheet_read(const uint8_t *file, size_t file_len, uint32_t *table, size_t table_len)
{
    uint64_t answer = sound(file, file_len, table, table_len);
    return sheet_code(answer) == SHEET_NEEDLESS_FORK && sheet_value(answer) > 40 ? answer + 256 : answer;
}

#elif FAULT == 12 /* read: in a room for just nine nodes or more, a word behind the room is written */
uint64_t sound(const uint8_t *file, size_t file_len, uint32_t *table, size_t table_len);
uint64_t sheet_read(const uint8_t *file, size_t file_len, uint32_t *table, size_t table_len)
{
    uint64_t answer = sound(file, file_len, table, table_len);
    if (sheet_code(answer) == SHEET_OK && table_len >= 54 && table_len == sheet_count(answer) * SHEET_NODE_WORDS)
        table[table_len] = 0;
    return answer;
}

#elif FAULT == 13 /* read: where a file ends after some records, the byte beyond is looked at */
uint64_t sound(const uint8_t *file, size_t file_len, uint32_t *table, size_t table_len);
uint64_t sheet_read(const uint8_t *file, size_t file_len, uint32_t *table, size_t table_len)
{
    uint64_t answer = sound(file, file_len, table, table_len);
    if (sheet_code(answer) == SHEET_FILE_ENDS && file_len > 14 && ((const volatile uint8_t *)file)[file_len] == 0x4e)
        return answer + 256;
    return answer;
}

#elif FAULT == 14 /* diagonal_leaf: a word of the table is written and put back */
uint64_t sound(uint32_t n, const uint32_t *table, size_t table_len, uint32_t node, uint32_t corner);
uint64_t sheet_diagonal_leaf(uint32_t n, const uint32_t *table, size_t table_len, uint32_t node, uint32_t corner)
{
    volatile uint32_t *first = (volatile uint32_t *)table;
    if (table_len > 0 && corner < 4) {
        uint32_t old = *first;
        *first = node;
        *first = old;
    }
    return sound(n, table, table_len, node, corner);
}
#endif
