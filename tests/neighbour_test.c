/*
 * sheet_neighbour against the second implementation, and against answers worked
 * out by hand.
 */
#include "second/second.h"
#include "sheet.h"
#include "support/asking.h"
#include "support/report.h"
#include "support/words.h"

static uint64_t ask_library(uint32_t n, const uint32_t *table, size_t table_len, uint32_t node, const uint32_t *numbers)
{
    return sheet_neighbour(n, table, table_len, node, numbers[0]);
}

static uint64_t ask_second(const struct second_cover *c, uint32_t node, const uint32_t *numbers)
{
    return second_neighbour(c, node, numbers[0]);
}

static const struct asking neighbour = {ask_library, ask_second, 1, 8, 0};

static const uint32_t sheet_a[] = {SHEET_A}, estate[] = {ESTATE}, stair[] = {STAIR}, one_leaf[] = {LEAF(NO, B)};

static const struct asked of_sheet_a[] = {
    {"sheet A: E of 1 is 2, a fork", 1, {SHEET_E}, FOUND(2, 1)},
    {"sheet A: SE of 1 is 8", 1, {SHEET_SE}, FOUND(8, 1)},
    {"sheet A: S of 6 is 8", 6, {SHEET_S}, FOUND(8, 1)},
    {"sheet A: SW of 5 is 7", 5, {SHEET_SW}, FOUND(7, 1)},
    {"sheet A: NW of 1 is off the sheet", 1, {SHEET_NW}, 20, 0},
    {"sheet A: W of 2, a fork, is 1", 2, {SHEET_W}, FOUND(1, 1)},
    {"sheet A: W of 6 is 5, under its own father", 6, {SHEET_W}, FOUND(5, 0)},
    {"sheet A: W of 5 is 1, larger than 5", 5, {SHEET_W}, FOUND(1, 1)},
    {"sheet A: SE of 5 is 8, and S too", 5, {SHEET_SE}, FOUND(8, 1)},
    {"sheet A: the root has no neighbour", 0, {SHEET_S}, 20, 0},
    {"sheet A: node 9 is not there", 9, {SHEET_S}, 6, 9},
    {"sheet A: direction 8 is none", 1, {8}, 7, 8},
    {"sheet A: direction 8 where nothing lies is none", 0, {8}, 7, 8},
    {"sheet A: node 9 comes before direction 8", 9, {8}, 6, 9},
};

/* The same nodes are larger on a larger sheet. */
static const struct asked of_large_sheet_a[] = {
    {"sheet A at level 7: E of 1 is 2, a fork of level 6", 1, {SHEET_E}, FOUND(2, 6)},
    {"sheet A at level 7: W of 5 is 1, of level 6", 5, {SHEET_W}, FOUND(1, 6)},
    {"sheet A at level 7: W of 6 is 5, of level 5", 6, {SHEET_W}, FOUND(5, 5)},
    {"sheet A at level 7: NW of 1 is off the sheet", 1, {SHEET_NW}, 20, 0},
};

/* The ponds lie under one grey neighbour and still do not touch. */
static const struct asked of_estate[] = {
    {"the estate: E of the western pond is grey", 1, {SHEET_E}, FOUND(2, 2)},
    {"the estate: W of the eastern pond is the bank", 4, {SHEET_W}, FOUND(3, 1)},
    {"the estate: W of its southern half is the bank", 6, {SHEET_W}, FOUND(5, 1)},
    {"the estate: NW of that is the bank", 6, {SHEET_NW}, FOUND(3, 1)},
    {"the estate: W of the bank is the western pond", 5, {SHEET_W}, FOUND(1, 2)},
};

/* Levels 0 to 6 side by side; none of them is also the node's depth. */
static const struct asked of_stair[] = {
    {"the stair: E of the pixel is a quarter of the sheet", 25, {SHEET_E}, FOUND(26, 6)},
    {"the stair: S of the pixel is a quarter", 25, {SHEET_S}, FOUND(27, 6)},
    {"the stair: SE of the pixel is a quarter", 25, {SHEET_SE}, FOUND(28, 6)},
    {"the stair: NE of the pixel is a quarter too", 25, {SHEET_NE}, FOUND(26, 6)},
    {"the stair: W of the pixel is a pixel", 25, {SHEET_W}, FOUND(24, 0)},
    {"the stair: NW of the pixel is a pixel", 25, {SHEET_NW}, FOUND(22, 0)},
    {"the stair: N of another pixel is one level up", 22, {SHEET_N}, FOUND(19, 1)},
    {"the stair: SW of another pixel is six levels up", 24, {SHEET_SW}, FOUND(27, 6)},
    {"the stair: NW of a leaf of level 4 is one level up", 6, {SHEET_NW}, FOUND(2, 5)},
    {"the stair: E of 20 is the lowest fork", 20, {SHEET_E}, FOUND(21, 1)},
    {"the stair: E of 4 is a fork of its own level", 4, {SHEET_E}, FOUND(5, 5)},
    {"the stair: SE of 10 is a fork of its own level", 10, {SHEET_SE}, FOUND(13, 3)},
    {"the stair: W of a quarter is a fork of its own level", 26, {SHEET_W}, FOUND(1, 6)},
    {"the stair: NW of a quarter is a fork of its own level", 28, {SHEET_NW}, FOUND(1, 6)},
    {"the stair: N of a fork is its brother", 13, {SHEET_N}, FOUND(11, 3)},
    {"the stair: E of the lowest fork is a quarter", 21, {SHEET_E}, FOUND(26, 6)},
    {"the stair: N of a fork is off the sheet", 1, {SHEET_N}, 20, 0},
    {"the stair: SE of a quarter is off the sheet", 28, {SHEET_SE}, 20, 0},
    {"the stair: node 29 is not there", 29, {SHEET_N}, 6, 29},
    {"the stair: direction 8 is none", 28, {8}, 7, 8},
};

static const struct asked of_one_leaf[] = {
    {"one leaf: nothing N", 0, {SHEET_N}, 20, 0},
    {"one leaf: nothing SE", 0, {SHEET_SE}, 20, 0},
    {"one leaf: node 1 is not there", 1, {SHEET_N}, 6, 1},
};

int main(void)
{
    asking_open(&neighbour);
    asking_by_hand(2, ALL(sheet_a), ALL(of_sheet_a));
    asking_by_hand(7, ALL(sheet_a), ALL(of_large_sheet_a));
    asking_by_hand(3, ALL(estate), ALL(of_estate));
    asking_by_hand(7, ALL(stair), ALL(of_stair));
    asking_by_hand(0, ALL(one_leaf), ALL(of_one_leaf));
    asking_by_hand(7, ALL(one_leaf), ALL(of_one_leaf));
    asking_compare();
    asking_codes();
    asking_levels();
    return report_end();
}
