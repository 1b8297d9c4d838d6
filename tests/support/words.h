/* Tables written out by hand: sheet A, the estate of the two ponds and the stair. */
#ifndef SUPPORT_WORDS_H
#define SUPPORT_WORDS_H

#include "sheet.h"

#define NO SHEET_NONE
#define W SHEET_WHITE
#define B SHEET_BLACK
#define LEAF(father, type) father, NO, NO, NO, NO, type
#define FORK(father, nw, ne, sw, se) father, nw, ne, sw, se, SHEET_GRAY

/* Level 2, 9 nodes: rows 1100, 1101, 0000, 0000. */
#define SHEET_A                                                                                         \
    FORK(NO, 1, 2, 7, 8), LEAF(0, B), FORK(0, 3, 4, 5, 6), LEAF(2, W), LEAF(2, W), LEAF(2, W),          \
        LEAF(2, B), LEAF(0, W), LEAF(0, W)

/*
 * The estate, level 3, 9 nodes: the western pond is node 1, the eastern pond
 * nodes 4 and 6, and between them lies a dry bank, nodes 3 and 5. Both the bank
 * and the eastern pond lie under node 2, the grey eastern neighbour of node 1.
 *
 *     1111 0011
 *     1111 0011
 *     1111 0011
 *     1111 0011
 *     0000 0000  (four such rows)
 */
#define ESTATE                                                                                          \
    FORK(NO, 1, 2, 7, 8), LEAF(0, B), FORK(0, 3, 4, 5, 6), LEAF(2, W), LEAF(2, B), LEAF(2, W),          \
        LEAF(2, B), LEAF(0, W), LEAF(0, W)

/*
 * The stair, level 7, 29 nodes: black but for node 25, the white pixel in column
 * 63 and row 63. Down to it, forks 1, 5, 9, 13, 17 and 21 have levels 6 to 1, the
 * first the root's son in the north-west, each other the one above's in the
 * south-east. The other three sons of fork p are p + 1 to p + 3, one level below
 * p. Nodes 26, 27 and 28 are the other quarters of the sheet, at level 6: they
 * touch the pixel in the east, in the south and at the corner.
 */
#define STEP(p, father) FORK(father, p + 1, p + 2, p + 3, p + 4), LEAF(p, B), LEAF(p, B), LEAF(p, B)
#define STAIR                                                                                           \
    FORK(NO, 1, 26, 27, 28), STEP(1, 0), STEP(5, 1), STEP(9, 5), STEP(13, 9), STEP(17, 13),             \
        STEP(21, 17), LEAF(21, W), LEAF(0, B), LEAF(0, B), LEAF(0, B)

#endif
