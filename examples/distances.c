/*
 * The archive job: how far each black leaf of a sheet file is from the nearest
 * white pixel, in half pixels.
 *
 *     distances <drawing.sheet
 *
 * It prints the sheet's level and node count, then a line with number and
 * distance for each black leaf. The outside of the sheet counts as black. What
 * cannot be done is said on the standard error stream, and the status is 1.
 */
#include <stdio.h>

#include "sheet.h"

enum { MOST_NODES = SHEET_LONGEST_TABLE / SHEET_NODE_WORDS };

static uint8_t file[SHEET_LONGEST_FILE + 1];
static uint32_t table[SHEET_LONGEST_TABLE];
static uint32_t distances[MOST_NODES];

static int complain_of_refusal(const char *call, uint64_t answer)
{
    fprintf(stderr, "distances: %s refused, code %lu, value %lu\n", call, (unsigned long)sheet_code(answer),
            (unsigned long)sheet_value(answer));
    return 1;
}

static void print_distances(uint32_t level, size_t nodes)
{
    printf("sheet %lu %lu\n", (unsigned long)level, (unsigned long)nodes);
    for (size_t node = 0; node < nodes; node++)
        if (table[node * SHEET_NODE_WORDS + SHEET_TYPE_WORD] == SHEET_BLACK)
            printf("%lu: %lu\n", (unsigned long)node, (unsigned long)distances[node]);
}

int main(void)
{
    uint64_t read = sheet_read(file, fread(file, 1, sizeof file, stdin), table, SHEET_LONGEST_TABLE);
    if (sheet_code(read) != SHEET_OK)
        return complain_of_refusal("sheet_read", read);
    uint32_t level = sheet_level(read);
    size_t nodes = sheet_count(read);
    uint64_t found = sheet_distance(level, table, nodes * SHEET_NODE_WORDS, distances, nodes);
    if (sheet_code(found) != SHEET_OK)
        return complain_of_refusal("sheet_distance", found);
    print_distances(level, nodes);
    return 0;
}
