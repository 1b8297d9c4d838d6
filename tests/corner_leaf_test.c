/*
 * sheet_corner_leaf against the second implementation, and against answers
 * worked out by hand.
 */
#include "second/second.h"
#include "sheet.h"
#include "support/asking.h"
#include "support/report.h"
#include "support/words.h"

static uint64_t ask_library(uint32_t n, const uint32_t *table, size_t table_len, uint32_t node, const uint32_t *numbers)
{
    return sheet_corner_leaf(n, table, table_len, node, numbers[0], numbers[1]);
}

static uint64_t ask_second(const struct second_cover *c, uint32_t node, const uint32_t *numbers)
{
    return second_corner_leaf(c, node, numbers[0], numbers[1]);
}

static const struct asking corner_leaf = {ask_library, ask_second, 2, 4, 1};

static const uint32_t sheet_a[] = {SHEET_A}, estate[] = {ESTATE}, stair[] = {STAIR}, one_leaf[] = {LEAF(NO, B)};

static const struct asked of_sheet_a[] = {
    {"sheet A: E of 1 at NE is leaf 3", 1, {SHEET_E, SHEET_QUADRANT_NE}, FOUND(3, 0)},
    {"sheet A: E of 1 at SE is leaf 5", 1, {SHEET_E, SHEET_QUADRANT_SE}, FOUND(5, 0)},
    {"sheet A: S of 2, a fork, at SE is leaf 8", 2, {SHEET_S, SHEET_QUADRANT_SE}, FOUND(8, 1)},
    {"sheet A: W of 2 at SW is leaf 1", 2, {SHEET_W, SHEET_QUADRANT_SW}, FOUND(1, 1)},
    {"sheet A: N of 8 at NE is leaf 6", 8, {SHEET_N, SHEET_QUADRANT_NE}, FOUND(6, 0)},
    {"sheet A: S of 6 at SW is leaf 8, larger than 6", 6, {SHEET_S, SHEET_QUADRANT_SW}, FOUND(8, 1)},
    {"sheet A: N of 1 is off the sheet", 1, {SHEET_N, SHEET_QUADRANT_NW}, 20, 0},
    {"sheet A: corner NW is not on side E", 1, {SHEET_E, SHEET_QUADRANT_NW}, 7, SHEET_QUADRANT_NW},
    {"sheet A: corner SW is not on side E", 1, {SHEET_E, SHEET_QUADRANT_SW}, 7, SHEET_QUADRANT_SW},
    {"sheet A: corner SE is not on side N, where nothing lies", 1, {SHEET_N, SHEET_QUADRANT_SE}, 7, SHEET_QUADRANT_SE},
    {"sheet A: side 4 is none", 1, {4, SHEET_QUADRANT_NW}, 7, 4},
    {"sheet A: corner 4 is none", 1, {SHEET_E, 4}, 7, 4},
    {"sheet A: a bad side comes before a bad corner", 1, {7, 9}, 7, 7},
    {"sheet A: node 9 comes before a bad side", 9, {7, 9}, 6, 9},
};

/* The same leaves are larger on a larger sheet. */
static const struct asked of_large_sheet_a[] = {
    {"sheet A at level 7: E of 1 at NE is leaf 3, of level 5", 1, {SHEET_E, SHEET_QUADRANT_NE}, FOUND(3, 5)},
    {"sheet A at level 7: S of 6 at SW is leaf 8, of level 6", 6, {SHEET_S, SHEET_QUADRANT_SW}, FOUND(8, 6)},
    {"sheet A at level 7: N of 1 is off the sheet", 1, {SHEET_N, SHEET_QUADRANT_NW}, 20, 0},
};

/* What touches the western pond on its eastern side is dry at both ends. */
static const struct asked of_estate[] = {
    {"the estate: E of the western pond at NE is the bank", 1, {SHEET_E, SHEET_QUADRANT_NE}, FOUND(3, 1)},
    {"the estate: E of the western pond at SE is the bank", 1, {SHEET_E, SHEET_QUADRANT_SE}, FOUND(5, 1)},
    {"the estate: W of the eastern pond at NW is the bank", 4, {SHEET_W, SHEET_QUADRANT_NW}, FOUND(3, 1)},
    {"the estate: W of the eastern pond at SW is the bank", 6, {SHEET_W, SHEET_QUADRANT_SW}, FOUND(5, 1)},
};

/* Levels 0 to 6 side by side; none of them is also the leaf's depth. */
static const struct asked of_stair[] = {
    {"the stair: W of a quarter at SW is the pixel", 26, {SHEET_W, SHEET_QUADRANT_SW}, FOUND(25, 0)},
    {"the stair: W of a quarter at NW is one level down", 26, {SHEET_W, SHEET_QUADRANT_NW}, FOUND(3, 5)},
    {"the stair: N of a quarter at NE is the pixel", 27, {SHEET_N, SHEET_QUADRANT_NE}, FOUND(25, 0)},
    {"the stair: N of a quarter at NW is one level down", 27, {SHEET_N, SHEET_QUADRANT_NW}, FOUND(4, 5)},
    {"the stair: N of a quarter at NW is a quarter", 28, {SHEET_N, SHEET_QUADRANT_NW}, FOUND(26, 6)},
    {"the stair: E of the pixel at NE is a quarter", 25, {SHEET_E, SHEET_QUADRANT_NE}, FOUND(26, 6)},
    {"the stair: S of the pixel at SE is a quarter", 25, {SHEET_S, SHEET_QUADRANT_SE}, FOUND(27, 6)},
    {"the stair: W of the pixel at NW is a pixel", 25, {SHEET_W, SHEET_QUADRANT_NW}, FOUND(24, 0)},
    {"the stair: N of another pixel at NE is one level up", 22, {SHEET_N, SHEET_QUADRANT_NE}, FOUND(19, 1)},
    {"the stair: E of 4 at NE is one level down", 4, {SHEET_E, SHEET_QUADRANT_NE}, FOUND(6, 4)},
    {"the stair: E of 4 at SE is one level down", 4, {SHEET_E, SHEET_QUADRANT_SE}, FOUND(8, 4)},
    {"the stair: E of 20 at SE is a pixel", 20, {SHEET_E, SHEET_QUADRANT_SE}, FOUND(24, 0)},
    {"the stair: W of 5, a fork, at SW is its brother", 5, {SHEET_W, SHEET_QUADRANT_SW}, FOUND(4, 5)},
    {"the stair: E of the lowest fork at NE is a quarter", 21, {SHEET_E, SHEET_QUADRANT_NE}, FOUND(26, 6)},
    {"the stair: N of a fork is off the sheet", 1, {SHEET_N, SHEET_QUADRANT_NE}, 20, 0},
    {"the stair: node 29 is not there", 29, {SHEET_N, SHEET_QUADRANT_NE}, 6, 29},
    {"the stair: corner SW is not on side E", 25, {SHEET_E, SHEET_QUADRANT_SW}, 7, SHEET_QUADRANT_SW},
};

static const struct asked of_one_leaf[] = {
    {"one leaf: nothing W", 0, {SHEET_W, SHEET_QUADRANT_SW}, 20, 0},
    {"one leaf: corner NE is not on side W", 0, {SHEET_W, SHEET_QUADRANT_NE}, 7, SHEET_QUADRANT_NE},
    {"one leaf: node 1 is not there", 1, {SHEET_W, SHEET_QUADRANT_SW}, 6, 1},
};

int main(void)
{
    asking_open(&corner_leaf);
    asking_by_hand(2, ALL(sheet_a), ALL(of_sheet_a));
    asking_by_hand(7, ALL(sheet_a), ALL(of_large_sheet_a));
    asking_by_hand(3, ALL(estate), ALL(of_estate));
    asking_by_hand(7, ALL(stair), ALL(of_stair));
    asking_by_hand(0, ALL(one_leaf), ALL(of_one_leaf));
    asking_by_hand(7, ALL(one_leaf), ALL(of_one_leaf));
    asking_compare();
    asking_codes();
    asking_levels();
    return report_end();
}
