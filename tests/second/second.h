/*
 * The second implementation: each call once more, written from the documents
 * alone, by brute force, to hold the library against. It shares no code with
 * the library or with the header.
 */
#ifndef SECOND_H
#define SECOND_H

#include <stddef.h>
#include <stdint.h>

#include "second/cover.h"

/* What sheet_check must give back, and which of the six rules decided; rule is
 * 0 where none did (accepted, a bad level or a bad length). */
uint64_t second_check(uint32_t n, const uint32_t *table, size_t table_len, int *rule);

/* What sheet_neighbour must give back for the sheet that is covered so. */
uint64_t second_neighbour(const struct second_cover *c, uint32_t node, uint32_t direction);

/* What sheet_corner_leaf must give back for such a sheet. */
uint64_t second_corner_leaf(const struct second_cover *c, uint32_t node, uint32_t side, uint32_t corner);

/* What sheet_diagonal_leaf must give back for such a sheet. */
uint64_t second_diagonal_leaf(const struct second_cover *c, uint32_t node, uint32_t corner);

/* What sheet_distance must give back, and the words that it must write. */
uint64_t second_distance(uint32_t n, const uint32_t *table, size_t table_len, uint32_t *distances, size_t distances_len);

/* What sheet_ponds must give back, and the words that it must write to both
 * slices. */
uint64_t second_ponds(uint32_t n, const uint32_t *table, size_t table_len, uint32_t *numbers, size_t numbers_len,
                      uint32_t *reg, size_t reg_len);

/* What sheet_centre must give back, and the two numbers that it must write. */
uint64_t second_centre(uint32_t n, const uint32_t *table, size_t table_len, uint32_t node, double east, double north,
                       double step, double *place, size_t place_len);

/* Where a node of a sound table lies: its top left pixel and its side. */
struct second_block {
    uint32_t left, top, side;
};

struct second_block second_block(uint32_t n, const uint32_t *table, uint32_t node);

/* What sheet_build must give back, and the words that it must write. */
uint64_t second_build(uint32_t n, const uint8_t *raster, size_t raster_len, uint32_t *table, size_t table_len);

/* What sheet_decode must give back, and the bytes that it must write. */
uint64_t second_decode(uint32_t n, const uint32_t *table, size_t table_len, uint8_t *raster, size_t raster_len);

/* What sheet_read must give back, and the words that it must write. */
uint64_t second_read(const uint8_t *file, size_t file_len, uint32_t *table, size_t table_len);

/* What sheet_write must give back, and the bytes that it must write. */
uint64_t second_write(uint32_t n, const uint32_t *table, size_t table_len, uint8_t *file, size_t file_len);

#endif
