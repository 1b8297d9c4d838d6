/* Each call once more, in plain C written for speed: what the library is timed
 * against. The answers are the library's, and no memory grows with N. */
#ifndef PLAIN_H
#define PLAIN_H

#include <stddef.h>
#include <stdint.h>

uint64_t plain_check(uint32_t n, const uint32_t *table, size_t table_len);
uint64_t plain_build(uint32_t n, const uint8_t *raster, size_t raster_len, uint32_t *table, size_t table_len);
uint64_t plain_decode(uint32_t n, const uint32_t *table, size_t table_len, uint8_t *raster, size_t raster_len);
uint64_t plain_neighbour(uint32_t n, const uint32_t *table, size_t table_len, uint32_t node, uint32_t direction);
uint64_t plain_corner_leaf(uint32_t n, const uint32_t *table, size_t table_len, uint32_t node, uint32_t side,
                           uint32_t corner);
uint64_t plain_diagonal_leaf(uint32_t n, const uint32_t *table, size_t table_len, uint32_t node, uint32_t corner);
uint64_t plain_distance(uint32_t n, const uint32_t *table, size_t table_len, uint32_t *distances, size_t distances_len);
/* The distances by document 001's method, and by two passes over the raster, pixel
 * by pixel as the books have it, and with whole rows taken at once. */
uint64_t plain_distance_in_tree(uint32_t n, const uint32_t *table, size_t table_len, uint32_t *distances,
                                size_t distances_len);
uint64_t plain_two_pass(uint32_t n, const uint32_t *table, size_t table_len, uint32_t *distances, size_t distances_len);
uint64_t plain_two_pass_rows(uint32_t n, const uint32_t *table, size_t table_len, uint32_t *distances,
                             size_t distances_len);

uint64_t plain_ponds(uint32_t n, const uint32_t *table, size_t table_len, uint32_t *numbers, size_t numbers_len,
                     uint32_t *reg, size_t reg_len);
/* The ponds with no memory but the lent words and a row's worth. */
uint64_t plain_ponds_in_place(uint32_t n, const uint32_t *table, size_t table_len, uint32_t *numbers,
                              size_t numbers_len, uint32_t *reg, size_t reg_len);
uint64_t plain_read(const uint8_t *file, size_t file_len, uint32_t *table, size_t table_len);
uint64_t plain_write(uint32_t n, const uint32_t *table, size_t table_len, uint8_t *file, size_t file_len);
uint64_t plain_centre(uint32_t n, const uint32_t *table, size_t table_len, uint32_t node, double east, double north,
                      double step, double *place, size_t place_len);

/* The floor: the least that a look at every word of a table can cost. */
uint64_t plain_sum(const uint32_t *table, size_t table_len);

#endif
