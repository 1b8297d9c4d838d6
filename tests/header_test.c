/*
 * sheet.h as its reader meets it: as C89 and as C++, included twice, with the
 * documents' numbers behind its names and its own examples.
 */
#include "sheet.h"
#include "sheet.h"

#include "support/report.h"

static int calls;

/* Code 6 with the highest value there is: a node number of 32 bits. */
static uint64_t counted_answer(void)
{
    calls++;
    return (uint64_t)SHEET_NONE * 256 + SHEET_NO_SUCH_NODE;
}

static void check_parts_of_an_answer(void)
{
    calls = 0;
    report_check("the code of an answer", sheet_code(counted_answer()) == SHEET_NO_SUCH_NODE);
    report_check("sheet_code takes its argument once", calls == 1);
    report_check("the value of an answer", sheet_value(counted_answer()) == SHEET_NONE);
    report_check("sheet_value takes its argument once", calls == 2);
}

/* Code 0 and, as value, the node or node count and the level beside it. */
static uint64_t answer_of(uint32_t number, uint32_t level)
{
    return 256 * ((uint64_t)number * 8 + level);
}

static uint64_t counted_last_node(void)
{
    calls++;
    return answer_of(21844, 7);
}

static void check_parts_of_a_value(void)
{
    uint32_t number, level;
    int nodes = 1, counts = 1, levels = 1;
    uint64_t answer = answer_of(9, 2);

    for (number = 0; number <= 21845; number++)
        for (level = 0; level <= 7; level++) {
            nodes &= sheet_node(answer_of(number, level)) == number;
            counts &= sheet_count(answer_of(number, level)) == number;
            levels &= sheet_level(answer_of(number, level)) == level;
        }
    report_check("every node", nodes);
    report_check("every node count", counts);
    report_check("every level", levels);
    calls = 0;
    report_check("the last node", sheet_node(counted_last_node()) == 21844);
    report_check("sheet_node takes its argument once", calls == 1);
    report_check("a count as high", sheet_count(counted_last_node()) == 21844);
    report_check("sheet_count takes its argument once", calls == 2);
    report_check("the highest level", sheet_level(counted_last_node()) == 7);
    report_check("sheet_level takes its argument once", calls == 3);
    report_check("an argument of several parts",
                 sheet_node(calls ? answer : 0) == 9 && sheet_count(0 | answer) == 9 && sheet_level(answer | 0) == 2);
    report_check("parts within a sum", 54 - sheet_node(answer) * 6 == 0 && 54 - sheet_count(answer) * 6 == 0 &&
                                           1 << sheet_level(answer) == 4 && 7 % sheet_level(answer) == 1);
    report_check("parts are words", sizeof sheet_node(answer) == 4 && sizeof sheet_count(answer) == 4 &&
                                        sizeof sheet_level(answer) == 4 && sizeof sheet_code(answer) == 4);
    report_check("a value is two", sizeof sheet_value(answer) == 8);
}

static void check_numbers(void)
{
    report_check("a level beside a node", SHEET_PACKED_LEVELS == 8 && SHEET_PACKED_LEVELS > SHEET_HIGHEST_LEVEL);
    report_check("sizes", SHEET_HIGHEST_LEVEL == 7 && SHEET_NODE_WORDS == 6 && SHEET_LONGEST_TABLE == 131070);
    report_check("None is the highest word", SHEET_NONE == (uint32_t)-1);
    report_check("the words of a node", SHEET_FATHER_WORD == 0 && SHEET_SON_WORD == 1 && SHEET_TYPE_WORD == 5);
    report_check("quadrants", SHEET_QUADRANT_NW == 0 && SHEET_QUADRANT_NE == 1 && SHEET_QUADRANT_SW == 2 &&
                                  SHEET_QUADRANT_SE == 3);
    report_check("types", SHEET_WHITE == 0 && SHEET_BLACK == 1 && SHEET_GRAY == 2);
    report_check("directions", SHEET_N == 0 && SHEET_E == 1 && SHEET_S == 2 && SHEET_W == 3 && SHEET_NW == 4 &&
                                   SHEET_NE == 5 && SHEET_SW == 6 && SHEET_SE == 7);
    report_check("the distance where no pixel is white", SHEET_NO_WHITE == (uint32_t)-1);
    report_check("the words of a pond", SHEET_POND_WORDS == 5 && SHEET_PIXELS_WORD == 0 && SHEET_FIRST_ROW_WORD == 1 &&
                                            SHEET_LAST_ROW_WORD == 2 && SHEET_FIRST_COLUMN_WORD == 3 &&
                                            SHEET_LAST_COLUMN_WORD == 4);
    report_check("the longest register: three black pixels under each lowest fork",
                 SHEET_LONGEST_REGISTER == SHEET_POND_WORDS * 3 * (1 << 2 * (SHEET_HIGHEST_LEVEL - 1)));
    report_check("the longest file", SHEET_LONGEST_FILE == 5 + 3 * (SHEET_LONGEST_TABLE / SHEET_NODE_WORDS));
    report_check("codes of the check", SHEET_OK == 0 && SHEET_BAD_LEVEL == 1 && SHEET_BAD_LENGTH == 2 &&
                                           SHEET_BAD_NODE == 3 && SHEET_TOO_DEEP == 4 && SHEET_NEEDLESS_FORK == 5);
    report_check("codes of the other calls", SHEET_NO_SUCH_NODE == 6 && SHEET_BAD_DIRECTION == 7 &&
                                                 SHEET_BAD_PIXEL == 8 && SHEET_NO_ROOM == 9 &&
                                                 SHEET_BAD_GROUND == 11 && SHEET_BAD_RECORD == 12 &&
                                                 SHEET_FILE_ENDS == 13 && SHEET_BAD_COUNT == 14 &&
                                                 SHEET_NO_BLOCK == 20);
}

static const uint32_t table[] = {
    SHEET_NONE, 1, 2, 7, 8, SHEET_GRAY,
    0, SHEET_NONE, SHEET_NONE, SHEET_NONE, SHEET_NONE, SHEET_BLACK,
    0, 3, 4, 5, 6, SHEET_GRAY,
    2, SHEET_NONE, SHEET_NONE, SHEET_NONE, SHEET_NONE, SHEET_WHITE,
    2, SHEET_NONE, SHEET_NONE, SHEET_NONE, SHEET_NONE, SHEET_WHITE,
    2, SHEET_NONE, SHEET_NONE, SHEET_NONE, SHEET_NONE, SHEET_WHITE,
    2, SHEET_NONE, SHEET_NONE, SHEET_NONE, SHEET_NONE, SHEET_BLACK,
    0, SHEET_NONE, SHEET_NONE, SHEET_NONE, SHEET_NONE, SHEET_WHITE,
    0, SHEET_NONE, SHEET_NONE, SHEET_NONE, SHEET_NONE, SHEET_WHITE
};

static void check_example(void)
{
    uint64_t answer = sheet_check(2, table, sizeof table / sizeof *table);

    report_check("the example is accepted", sheet_code(answer) == SHEET_OK && sheet_value(answer) == 9);
    answer = sheet_check(1, table, sizeof table / sizeof *table);
    report_check("the example at level 1", sheet_code(answer) == SHEET_TOO_DEEP && sheet_value(answer) == 2);
}

/* Is this node found, with this level beside it and so with this value? */
static int finds(uint64_t answer, uint32_t node, uint32_t level, uint32_t value)
{
    return sheet_code(answer) == SHEET_OK && sheet_node(answer) == node && sheet_level(answer) == level &&
           sheet_value(answer) == value;
}

static void check_found_nodes(void)
{
    uint64_t answer = sheet_neighbour(2, table, 54, 1, SHEET_NW);

    report_check("the example's neighbour in the east", finds(sheet_neighbour(2, table, 54, 1, SHEET_E), 2, 1, 17));
    report_check("its neighbour in the south-east", finds(sheet_neighbour(2, table, 54, 1, SHEET_SE), 8, 1, 65));
    report_check("none in the north-west", sheet_code(answer) == SHEET_NO_BLOCK && sheet_value(answer) == 0);
    report_check("the example's corner leaf",
                 finds(sheet_corner_leaf(2, table, 54, 1, SHEET_E, SHEET_QUADRANT_NE), 3, 0, 24));
    report_check("the leaf at the other end",
                 finds(sheet_corner_leaf(2, table, 54, 1, SHEET_E, SHEET_QUADRANT_SE), 5, 0, 40));
    report_check("the example's diagonal leaf",
                 finds(sheet_diagonal_leaf(2, table, 54, 8, SHEET_QUADRANT_NW), 1, 1, 9));
}

static void check_read(void)
{
    static const uint8_t file[] = {
        0x51, 0x53, 2, 9, 0,
        0x51, 0x4E, SHEET_GRAY,  0x51, 0x4E, SHEET_BLACK,
        0x51, 0x4E, SHEET_GRAY,  0x51, 0x4E, SHEET_WHITE,
        0x51, 0x4E, SHEET_WHITE, 0x51, 0x4E, SHEET_WHITE,
        0x51, 0x4E, SHEET_BLACK, 0x51, 0x4E, SHEET_WHITE,
        0x51, 0x4E, SHEET_WHITE
    };
    uint32_t words[54];
    uint64_t answer = sheet_read(file, sizeof file, words, 54);

    report_check("the example's file", sheet_code(answer) == SHEET_OK && sheet_value(answer) == 74 &&
                                           sheet_count(answer) == 9 && sheet_level(answer) == 2);
}

int main(void)
{
    check_parts_of_an_answer();
    check_parts_of_a_value();
    check_numbers();
    check_example();
    check_found_nodes();
    check_read();
    return report_end();
}
