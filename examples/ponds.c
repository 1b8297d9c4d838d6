/*
 * Two ponds on an estate, with a dry bank between them. The quadtree sees the
 * eastern pond and the bank as one grey block beside the western pond: what lies
 * in a grey neighbour need not touch. The leaves at the corners do. The numbers
 * of the ponds tell the two apart.
 */
#include <stdio.h>

#include "sheet.h"

enum { LEVEL = 3, NODES = 85, ROOM = NODES * SHEET_NODE_WORDS, REGISTER = NODES * SHEET_POND_WORDS };

/* A side of 8 pixels: 1 is water, 0 is dry land. */
static const uint8_t estate[] = {
    1, 1, 1, 1, 0, 0, 1, 1,
    1, 1, 1, 1, 0, 0, 1, 1,
    1, 1, 1, 1, 0, 0, 1, 1,
    1, 1, 1, 1, 0, 0, 1, 1,
    0, 0, 0, 0, 0, 0, 0, 0,
    0, 0, 0, 0, 0, 0, 0, 0,
    0, 0, 0, 0, 0, 0, 0, 0,
    0, 0, 0, 0, 0, 0, 0, 0,
};

static uint32_t table[ROOM], numbers[NODES], reg[REGISTER];

static const char *look_of(uint32_t node)
{
    static const char *const looks[] = {"dry", "water", "grey"};
    return looks[table[node * SHEET_NODE_WORDS + SHEET_TYPE_WORD]];
}

static void print_answer(const char *what, uint64_t answer)
{
    if (sheet_code(answer) == SHEET_OK)
        printf("%s: node %lu, %s, side %lu\n", what, (unsigned long)sheet_node(answer), look_of(sheet_node(answer)),
               1ul << sheet_level(answer));
    else
        printf("%s: code %lu\n", what, (unsigned long)sheet_code(answer));
}

/* Each pond's entry, and the black leaves that are part of it. */
static void print_pond(uint32_t number, uint32_t nodes)
{
    const uint32_t *entry = reg + (number - 1) * SHEET_POND_WORDS;
    printf("pond %lu: %lu pixels, rows %lu to %lu, columns %lu to %lu, nodes", (unsigned long)number,
           (unsigned long)entry[SHEET_PIXELS_WORD], (unsigned long)entry[SHEET_FIRST_ROW_WORD],
           (unsigned long)entry[SHEET_LAST_ROW_WORD], (unsigned long)entry[SHEET_FIRST_COLUMN_WORD],
           (unsigned long)entry[SHEET_LAST_COLUMN_WORD]);
    for (uint32_t node = 0; node < nodes; node++)
        if (numbers[node] == number)
            printf(" %lu", (unsigned long)node);
    printf("\n");
}

int main(void)
{
    const uint32_t pond = 1; /* the western pond is the first son of the root */
    uint64_t built = sheet_build(LEVEL, estate, sizeof estate, table, ROOM);
    uint32_t nodes = (uint32_t)sheet_value(built);
    size_t length = (size_t)nodes * SHEET_NODE_WORDS;
    if (sheet_code(built) != SHEET_OK)
        return 1;
    printf("nodes: %lu\n", (unsigned long)nodes);
    print_answer("east of the pond", sheet_neighbour(LEVEL, table, length, pond, SHEET_E));
    print_answer("touching it in the north-east",
                 sheet_corner_leaf(LEVEL, table, length, pond, SHEET_E, SHEET_QUADRANT_NE));
    print_answer("touching it in the south-east",
                 sheet_corner_leaf(LEVEL, table, length, pond, SHEET_E, SHEET_QUADRANT_SE));
    print_answer("west of the pond", sheet_neighbour(LEVEL, table, length, pond, SHEET_W));
    uint64_t found = sheet_ponds(LEVEL, table, length, numbers, nodes, reg, REGISTER);
    if (sheet_code(found) != SHEET_OK)
        return 1;
    printf("ponds: %lu\n", (unsigned long)sheet_value(found));
    for (uint32_t number = 1; number <= sheet_value(found); number++)
        print_pond(number, nodes);
    return 0;
}
