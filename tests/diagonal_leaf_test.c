/*
 * sheet_diagonal_leaf against the second implementation, and against answers
 * worked out by hand.
 */
#include "second/second.h"
#include "sheet.h"
#include "support/asking.h"
#include "support/report.h"
#include "support/words.h"

static uint64_t ask_library(uint32_t n, const uint32_t *table, size_t table_len, uint32_t node, const uint32_t *numbers)
{
    return sheet_diagonal_leaf(n, table, table_len, node, numbers[0]);
}

static uint64_t ask_second(const struct second_cover *c, uint32_t node, const uint32_t *numbers)
{
    return second_diagonal_leaf(c, node, numbers[0]);
}

static const struct asking diagonal_leaf = {ask_library, ask_second, 1, 4, 1};

static const uint32_t sheet_a[] = {SHEET_A}, estate[] = {ESTATE}, stair[] = {STAIR}, one_leaf[] = {LEAF(NO, B)};

static const struct asked of_sheet_a[] = {
    {"sheet A: beyond NW of 8 is leaf 1", 8, {SHEET_QUADRANT_NW}, FOUND(1, 1)},
    {"sheet A: beyond NE of 7 is leaf 5, under the fork", 7, {SHEET_QUADRANT_NE}, FOUND(5, 0)},
    {"sheet A: beyond SW of 2, a fork, is leaf 7", 2, {SHEET_QUADRANT_SW}, FOUND(7, 1)},
    {"sheet A: beyond SE of 1 is leaf 8", 1, {SHEET_QUADRANT_SE}, FOUND(8, 1)},
    {"sheet A: beyond SE of 5 is leaf 8", 5, {SHEET_QUADRANT_SE}, FOUND(8, 1)},
    {"sheet A: beyond NE of 6 is off the sheet", 6, {SHEET_QUADRANT_NE}, 20, 0},
    {"sheet A: node 9 is not there", 9, {SHEET_QUADRANT_NE}, 6, 9},
    {"sheet A: corner 4 is none", 1, {4}, 7, 4},
    {"sheet A: corner 4 where nothing lies is none", 0, {4}, 7, 4},
    {"sheet A: node 9 comes before corner 4", 9, {4}, 6, 9},
};

/* The same leaves are larger on a larger sheet. */
static const struct asked of_large_sheet_a[] = {
    {"sheet A at level 7: beyond NE of 7 is leaf 5, of level 5", 7, {SHEET_QUADRANT_NE}, FOUND(5, 5)},
    {"sheet A at level 7: beyond SE of 5 is leaf 8, of level 6", 5, {SHEET_QUADRANT_SE}, FOUND(8, 6)},
    {"sheet A at level 7: beyond NE of 6 is off the sheet", 6, {SHEET_QUADRANT_NE}, 20, 0},
};

/* Across the bank's corners lie bank and dry land, never the other pond. */
static const struct asked of_estate[] = {
    {"the estate: beyond NW of the eastern pond's south is the bank", 6, {SHEET_QUADRANT_NW}, FOUND(3, 1)},
    {"the estate: beyond SW of the eastern pond's north is the bank", 4, {SHEET_QUADRANT_SW}, FOUND(5, 1)},
    {"the estate: beyond SE of the western pond is dry land", 1, {SHEET_QUADRANT_SE}, FOUND(8, 2)},
    {"the estate: beyond NE of the western land is the bank", 7, {SHEET_QUADRANT_NE}, FOUND(5, 1)},
};

/* Levels 0 to 6 side by side; none of them is also the leaf's depth. */
static const struct asked of_stair[] = {
    {"the stair: beyond NW of a quarter is the pixel", 28, {SHEET_QUADRANT_NW}, FOUND(25, 0)},
    {"the stair: beyond SE of the pixel is a quarter", 25, {SHEET_QUADRANT_SE}, FOUND(28, 6)},
    {"the stair: beyond NE of the pixel is a quarter", 25, {SHEET_QUADRANT_NE}, FOUND(26, 6)},
    {"the stair: beyond SW of the pixel is a quarter", 25, {SHEET_QUADRANT_SW}, FOUND(27, 6)},
    {"the stair: beyond NW of the pixel is a pixel", 25, {SHEET_QUADRANT_NW}, FOUND(22, 0)},
    {"the stair: beyond NE of another pixel is a pixel", 24, {SHEET_QUADRANT_NE}, FOUND(23, 0)},
    {"the stair: beyond NW of another pixel is one level up", 22, {SHEET_QUADRANT_NW}, FOUND(18, 1)},
    {"the stair: beyond SW of a quarter is a quarter", 26, {SHEET_QUADRANT_SW}, FOUND(27, 6)},
    {"the stair: beyond SE of 2 is one level down", 2, {SHEET_QUADRANT_SE}, FOUND(6, 4)},
    {"the stair: beyond SE of 18 is a pixel", 18, {SHEET_QUADRANT_SE}, FOUND(22, 0)},
    {"the stair: beyond NW of 13, a fork, is its brother", 13, {SHEET_QUADRANT_NW}, FOUND(10, 3)},
    {"the stair: beyond SE of the lowest fork is a quarter", 21, {SHEET_QUADRANT_SE}, FOUND(28, 6)},
    {"the stair: beyond NE of a fork is off the sheet", 1, {SHEET_QUADRANT_NE}, 20, 0},
    {"the stair: node 29 is not there", 29, {SHEET_QUADRANT_NE}, 6, 29},
    {"the stair: corner 4 is none", 28, {4}, 7, 4},
};

static const struct asked of_one_leaf[] = {
    {"one leaf: nothing beyond NW", 0, {SHEET_QUADRANT_NW}, 20, 0},
    {"one leaf: node 1 is not there", 1, {SHEET_QUADRANT_NW}, 6, 1},
};

int main(void)
{
    asking_open(&diagonal_leaf);
    asking_by_hand(2, ALL(sheet_a), ALL(of_sheet_a));
    asking_by_hand(7, ALL(sheet_a), ALL(of_large_sheet_a));
    asking_by_hand(3, ALL(estate), ALL(of_estate));
    asking_by_hand(7, ALL(stair), ALL(of_stair));
    asking_by_hand(0, ALL(one_leaf), ALL(of_one_leaf));
    asking_by_hand(7, ALL(one_leaf), ALL(of_one_leaf));
    asking_compare();
    asking_codes();
    asking_levels();
    return report_end();
}
