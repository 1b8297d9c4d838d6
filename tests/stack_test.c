/*
 * How much stack each call uses on the largest sheets: less than 16 KiB.
 */
#include <stdio.h>

#include "sheet.h"
#include "support/report.h"
#include "support/stack.h"

enum { LIMIT = 16 * 1024, N = SHEET_HIGHEST_LEVEL, SIDE = 1 << N };

static uint8_t raster[SIDE * SIDE], decoded[SIDE * SIDE];
static uint32_t table[SHEET_LONGEST_TABLE], distances[SHEET_LONGEST_TABLE / SHEET_NODE_WORDS];
static uint32_t numbers[SHEET_LONGEST_TABLE / SHEET_NODE_WORDS], reg[SHEET_LONGEST_REGISTER];
static uint8_t file[SHEET_LONGEST_FILE];
static size_t length, file_length;
static double place[2];
static uint64_t answer;

static void call_check(void)
{
    answer = sheet_check(N, table, length);
}

static void call_build(void)
{
    answer = sheet_build(N, raster, sizeof raster, table, SHEET_LONGEST_TABLE);
}

static void call_decode(void)
{
    answer = sheet_decode(N, table, length, decoded, sizeof decoded);
}

static void call_write(void)
{
    answer = sheet_write(N, table, length, file, sizeof file);
}

static void call_read(void)
{
    answer = sheet_read(file, file_length, table, SHEET_LONGEST_TABLE);
}

static void call_neighbour(void)
{
    answer = sheet_neighbour(N, table, length, (uint32_t)(length / SHEET_NODE_WORDS - 1), SHEET_NW);
}

static void call_corner_leaf(void)
{
    answer = sheet_corner_leaf(N, table, length, 1, SHEET_E, SHEET_QUADRANT_NE);
}

static void call_diagonal_leaf(void)
{
    answer = sheet_diagonal_leaf(N, table, length, 1, SHEET_QUADRANT_SE);
}

static void call_distance(void)
{
    answer = sheet_distance(N, table, length, distances, length / SHEET_NODE_WORDS);
}

static void call_ponds(void)
{
    answer = sheet_ponds(N, table, length, numbers, length / SHEET_NODE_WORDS, reg, SHEET_LONGEST_REGISTER);
}

static void call_centre(void)
{
    answer = sheet_centre(N, table, length, (uint32_t)(length / SHEET_NODE_WORDS - 1), 0, 0, 1, place, 2);
}

static void stays_small(const char *name, void (*call)(void))
{
    char line[80];
    size_t used = stack_used(call);
    sprintf(line, "%s uses %lu bytes of stack", name, (unsigned long)used);
    report_check(line, sheet_code(answer) == SHEET_OK && used < LIMIT);
}

int main(void)
{
    size_t i;
    for (i = 0; i < sizeof raster; i++)
        raster[i] = (uint8_t)((i % SIDE + i / SIDE) % 2);
    stays_small("sheet_build", call_build);
    length = (size_t)sheet_value(answer) * SHEET_NODE_WORDS;
    stays_small("sheet_check", call_check);
    stays_small("sheet_decode", call_decode);
    stays_small("sheet_write", call_write);
    file_length = (size_t)sheet_value(answer);
    stays_small("sheet_read", call_read);
    stays_small("sheet_neighbour", call_neighbour);
    stays_small("sheet_corner_leaf", call_corner_leaf);
    stays_small("sheet_diagonal_leaf", call_diagonal_leaf);
    stays_small("sheet_distance", call_distance);
    stays_small("sheet_ponds", call_ponds);
    stays_small("sheet_centre", call_centre);
    return report_end();
}
