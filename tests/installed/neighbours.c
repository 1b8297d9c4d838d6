/*
 * A program of a user of the installed library: it makes a sheet of a raster and
 * prints what lies around one of its blocks. tests/installed.sh builds and runs it.
 */
#include <sheet.h>

#include <stdio.h>

/* Sheet A of document 01. */
static const uint8_t raster[] = {
    1, 1, 0, 0,
    1, 1, 0, 1,
    0, 0, 0, 0,
    0, 0, 0, 0
};
static uint32_t table[SHEET_LONGEST_TABLE];

static const char *type_of(uint32_t node)
{
    static const char *const names[] = {"white", "black", "grey"};

    return names[table[SHEET_NODE_WORDS * node + SHEET_TYPE_WORD]];
}

static void print_neighbour(size_t length, uint32_t node, uint32_t direction, const char *where)
{
    uint64_t answer = sheet_neighbour(2, table, length, node, direction);

    if (sheet_code(answer) == SHEET_OK)
        printf("%s of node %u: node %u, %s, side %u\n", where, (unsigned)node, (unsigned)sheet_node(answer),
               type_of(sheet_node(answer)), 1u << sheet_level(answer));
    else
        printf("%s of node %u: code %u\n", where, (unsigned)node, (unsigned)sheet_code(answer));
}

int main(void)
{
    uint64_t answer = sheet_build(2, raster, sizeof raster, table, SHEET_LONGEST_TABLE);
    size_t length = (size_t)sheet_value(answer) * SHEET_NODE_WORDS;

    if (sheet_code(answer) != SHEET_OK) {
        fprintf(stderr, "refused %u\n", (unsigned)sheet_code(answer));
        return 1;
    }
    printf("nodes %u\n", (unsigned)sheet_value(answer));
    print_neighbour(length, 1, SHEET_E, "east");
    print_neighbour(length, 1, SHEET_SE, "south-east");
    print_neighbour(length, 1, SHEET_NW, "north-west");
    return 0;
}
