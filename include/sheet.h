/*
 * sheet.h - quadtree map sheets: the calls of libsheet
 *
 * The header sheet.h is the manual, and the page sheet(3) is made from it. It
 * compiles as C89 (with <stddef.h> and <stdint.h>) and all C since, and as
 * C++98 and all C++ since, without a warning at the strictest levels of gcc and
 * clang.
 *
 * Sheets
 *
 *   A sheet has a level n, 0 to 7, and a side of 2^n pixels; each pixel is
 *   white or black. It is kept as a quadtree: a block of one colour is a leaf,
 *   any other block is a fork whose four sons are its quadrants.
 *
 * Tables
 *
 *   A table is a slice of 32-bit words, six for each node:
 *
 *       father  NW  NE  SW  SE  type
 *
 *   Node p has the words table[6 * p] to table[6 * p + 5]. Node 0 is the root.
 *   A father or a son that is not there is SHEET_NONE: the root's father and
 *   the four sons of a leaf. The slice's length gives the node count N; it is
 *   a positive multiple of 6, at most 131070 words (21845 nodes). A node at
 *   depth d (the root's is 0) has level n - d and side 2^(n-d).
 *
 * Rasters
 *
 *   A raster is a slice of exactly 4^n bytes, one for each pixel, row by row: 0
 *   is white, 1 is black. Columns and rows count from 0 at the top left, and
 *   the pixel in column x and row y is the byte at 2^n * y + x.
 *
 * Calls
 *
 *   Every call takes numbers and slices and gives one number back,
 *   code + 256 * value; sheet_code and sheet_value take it apart. A slice is a
 *   pointer and a length, and lengths count elements, not bytes. The pointer
 *   is aligned for its elements and good for as many of them as the length
 *   says; for length 0 it is never followed, and any pointer will do, NULL
 *   also.
 *
 *   A call writes to a slice only if it takes it without const, and only if its
 *   code is SHEET_OK; after any other code every slice stands as it was. A
 *   slice that a call may write overlaps no other slice of the same call.
 *
 *   No call prints, allocates memory, keeps anything from one call to the next
 *   or stops the program; whatever the numbers and words in its slices, it
 *   gives an answer. Calls may run in several threads at once, as long as no
 *   thread writes to a slice that another one has lent to a call.
 */
#ifndef SHEET_H
#define SHEET_H

#include <stddef.h>
#include <stdint.h>

#ifdef __cplusplus
extern "C" {
#endif

/* ---- Version ----------------------------------------------------------- */

/* Major 0 as long as requests move answers, then the number of requests that
 * have landed, then the mendings since, which move no answer. */
#define SHEET_VERSION "0.3.0"

/* ---- Sizes ------------------------------------------------------------- */

#define SHEET_HIGHEST_LEVEL 7      /* the highest level n of a sheet          */
#define SHEET_NODE_WORDS    6      /* the words of one node                   */
#define SHEET_LONGEST_TABLE 131070 /* the words of the longest table          */

/* ---- The words of a node ----------------------------------------------- */

/* No father, or no son. */
#define SHEET_NONE 4294967295u

/* Where a node's words stand among its six. The son in quadrant q stands at
 * SHEET_SON_WORD + q. */
#define SHEET_FATHER_WORD 0
#define SHEET_SON_WORD    1
#define SHEET_TYPE_WORD   5

/* The quadrants of a block, in the order of its son words. */
#define SHEET_QUADRANT_NW 0
#define SHEET_QUADRANT_NE 1
#define SHEET_QUADRANT_SW 2
#define SHEET_QUADRANT_SE 3

/* The types of a node. */
#define SHEET_WHITE 0 /* a white leaf                                         */
#define SHEET_BLACK 1 /* a black leaf                                         */
#define SHEET_GRAY  2 /* a fork                                               */

/* ---- The number given back --------------------------------------------- */

#ifdef __cplusplus
/* A number below 2^32 as a uint32_t, for the macros below. C++ has a cast of its
 * own, so as not to warn of C's. */
#define SHEET_WORD(number) (static_cast<uint32_t>(number))
#else
#define SHEET_WORD(number) ((uint32_t)(number))
#endif

/* The code, a uint32_t, and the value, a uint64_t, of a number given back by a
 * call. The argument is that number, a uint64_t, and each takes it once; of a
 * constant they make a constant. */
#define sheet_code(answer)  SHEET_WORD((answer) & 255u)
#define sheet_value(answer) ((answer) >> 8)

/* A level that stands beside a node or a node count in a value is below this:
 * the value is the node or the count times this, plus the level. */
#define SHEET_PACKED_LEVELS 8

/* The parts of such a value, each a uint32_t; the argument is as above. With
 * code SHEET_OK, sheet_node and sheet_level are for the answers of
 * sheet_neighbour, sheet_corner_leaf and sheet_diagonal_leaf, sheet_count and
 * sheet_level for those of sheet_read; for any other code or call they mean
 * nothing. */
#define sheet_node(answer)  SHEET_WORD(sheet_value(answer) / SHEET_PACKED_LEVELS)
#define sheet_count(answer) SHEET_WORD(sheet_value(answer) / SHEET_PACKED_LEVELS)
#define sheet_level(answer) SHEET_WORD(sheet_value(answer) % SHEET_PACKED_LEVELS)

/* ---- The codes --------------------------------------------------------- */

/*
 * Each call's own comment says which of the codes it gives and, where
 * several apply, which one. Codes 10 and 15 of the documents belong to the row
 * walk and the row program, and no call gives them.
 */

/* Answered. The value is the call's own. */
#define SHEET_OK 0
/* The level n is above 7. Value 0; in a file 2, the place of n's byte. */
#define SHEET_BAD_LEVEL 1
/* A slice has a wrong length. Value 0: the table; 1: the raster, the distances
 * or the ponds' numbers. */
#define SHEET_BAD_LENGTH 2
/* A node's type, father word or son words are wrong (rules 1 to 4 of
 * sheet_check). Value: the node. */
#define SHEET_BAD_NODE 3
/* A fork lies so deep that its sons would be smaller than a pixel (rule 5).
 * Value: the node, or the byte place in a file. */
#define SHEET_TOO_DEEP 4
/* A fork has four sons that are all white leaves or all black leaves, so that
 * it should be one leaf (rule 6). Value: the node, or the byte place in a
 * file. */
#define SHEET_NEEDLESS_FORK 5
/* The node asked for is not in the table: its number is N or above. Value:
 * that number. */
#define SHEET_NO_SUCH_NODE 6
/* A direction is above 7, a side or a corner is above 3, or the corner is not
 * on that side. Value: the direction, side or corner that is wrong. */
#define SHEET_BAD_DIRECTION 7
/* A pixel byte is above 1. Value: the first such place. */
#define SHEET_BAD_PIXEL 8
/* The slice to be written is too short. Value: the words, bytes or numbers
 * that are needed. */
#define SHEET_NO_ROOM 9
/* The ground place is out of range. Value, the first that fails: 0 east,
 * 1 north, 2 step. */
#define SHEET_BAD_GROUND 11
/* A file has a wrong mark byte or a type above 2. Value: the byte place. */
#define SHEET_BAD_RECORD 12
/* A file ends where a byte is needed. Value: that byte's place. */
#define SHEET_FILE_ENDS 13
/* A file's node count is not the number of its node records, or bytes are
 * left over. Value: the byte place. */
#define SHEET_BAD_COUNT 14
/* There is no block there: it would be off the sheet. Value 0. */
#define SHEET_NO_BLOCK 20

/* ---- sheet_check ------------------------------------------------------- */

/*
 * Is this slice the table of a sheet of level n?
 *
 * The tests, in this order; the first that fails decides:
 *
 *   SHEET_BAD_LEVEL      value 0     n is above 7
 *   SHEET_BAD_LENGTH     value 0     table_len is 0, no multiple of 6, or
 *                                    above 131070 (whatever n is)
 *
 * and then, with N = table_len / 6, for each node p from 0 to N - 1 in rising
 * number the six rules, one after the other:
 *
 *   SHEET_BAD_NODE       value p     1. the type is 0, 1 or 2;
 *                                    2. node 0 has father SHEET_NONE, any
 *                                       other node a father number below p;
 *                                    3. for p above 0, exactly one of the
 *                                       father's four son words is p;
 *                                    4. a fork's four son words lie above p
 *                                       and below N, and the father words of
 *                                       those sons are p; a leaf's four son
 *                                       words are SHEET_NONE;
 *   SHEET_TOO_DEEP       value p     5. a fork's depth is below n;
 *   SHEET_NEEDLESS_FORK  value p     6. a fork's four sons are not all WHITE
 *                                       and not all BLACK.
 *
 * If none fails the answer is
 *
 *   SHEET_OK             value N     the table is accepted.
 *
 * Any numbering that passes is accepted: fathers stand before their sons, and
 * nothing else is asked of the order. Rules 4 and 6 look at sons whose own
 * turn has not come yet: four sons of type 3 are neither all WHITE nor all
 * BLACK, so their father passes, and the fault is found at the sons.
 *
 * Buffers:   the table is only read, and stands afterwards as it was.
 * Pointers:  with table_len 0 the pointer may be NULL; the answer is then
 *            SHEET_BAD_LEVEL or SHEET_BAD_LENGTH.
 * Cost:      linear in N, with no memory that grows with N.
 *
 * Example: a sheet of level 2 with the rows 1100, 1101, 0000, 0000.
 *
 *     static const uint32_t table[] = {
 *         SHEET_NONE, 1, 2, 7, 8, SHEET_GRAY,
 *         0, SHEET_NONE, SHEET_NONE, SHEET_NONE, SHEET_NONE, SHEET_BLACK,
 *         0, 3, 4, 5, 6, SHEET_GRAY,
 *         2, SHEET_NONE, SHEET_NONE, SHEET_NONE, SHEET_NONE, SHEET_WHITE,
 *         2, SHEET_NONE, SHEET_NONE, SHEET_NONE, SHEET_NONE, SHEET_WHITE,
 *         2, SHEET_NONE, SHEET_NONE, SHEET_NONE, SHEET_NONE, SHEET_WHITE,
 *         2, SHEET_NONE, SHEET_NONE, SHEET_NONE, SHEET_NONE, SHEET_BLACK,
 *         0, SHEET_NONE, SHEET_NONE, SHEET_NONE, SHEET_NONE, SHEET_WHITE,
 *         0, SHEET_NONE, SHEET_NONE, SHEET_NONE, SHEET_NONE, SHEET_WHITE
 *     };
 *     uint64_t answer = sheet_check(2, table, sizeof table / sizeof *table);
 *
 *     sheet_code(answer)  is SHEET_OK
 *     sheet_value(answer) is 9, the node count
 *
 * At level 1 the same table is SHEET_TOO_DEEP with value 2: node 2 is a fork
 * at depth 1.
 */
uint64_t sheet_check(uint32_t n, const uint32_t *table, size_t table_len);

/* ---- sheet_build ------------------------------------------------------- */

/*
 * The table of a picture: the one tree that has no needless fork, in preorder
 * numbers. A node comes before its sons, and a son with all that is below it
 * before the next son, NW, NE, SW, SE.
 *
 * The tests, in this order; the first that fails decides:
 *
 *   SHEET_BAD_LEVEL      value 0     n is above 7
 *   SHEET_BAD_LENGTH     value 1     raster_len is not 4^n
 *   SHEET_BAD_PIXEL      value i     raster[i] is above 1, and i is the first
 *                                    such place
 *   SHEET_NO_ROOM        value 6N    table_len is below 6N, N being the node
 *                                    count of this picture
 *
 * If none fails the answer is
 *
 *   SHEET_OK             value N     the table is built.
 *
 * The table needs only room: any table_len from 6N on will do, one that is no
 * multiple of 6 or above SHEET_LONGEST_TABLE too. SHEET_LONGEST_TABLE words
 * are room enough for every picture.
 *
 * Buffers:   on SHEET_OK table[0] to table[6N - 1] are the table, and the
 *            words beyond stay as they were; on a refusal all words stay. The
 *            raster is only read.
 * Pointers:  with raster_len 0 the raster may be NULL, with table_len 0 the
 *            table; the answer is then a refusal.
 * Cost:      linear in the number of pixels, with no memory that grows with
 *            it.
 *
 * Example: the raster of the table that sheet_check's example has.
 *
 *     static const uint8_t raster[] = {1, 1, 0, 0,
 *                                      1, 1, 0, 1,
 *                                      0, 0, 0, 0,
 *                                      0, 0, 0, 0};
 *     uint32_t table[54];
 *     uint64_t answer = sheet_build(2, raster, sizeof raster, table, 54);
 *
 *     sheet_code(answer)  is SHEET_OK
 *     sheet_value(answer) is 9, the node count
 *     table               is that table, word for word
 *
 * With room for 53 words the answer is SHEET_NO_ROOM with value 54. So a call
 * with no table at all, sheet_build(2, raster, sizeof raster, NULL, 0), asks
 * for the room that is needed.
 */
uint64_t sheet_build(uint32_t n, const uint8_t *raster, size_t raster_len, uint32_t *table, size_t table_len);

/* ---- sheet_decode ------------------------------------------------------ */

/*
 * The picture of a table: every pixel gets the colour of the leaf that covers
 * it. The numbering of the nodes makes no difference.
 *
 * The tests, in this order; the first that fails decides:
 *
 *   SHEET_BAD_LEVEL      value 0     n is above 7
 *   SHEET_BAD_LENGTH     value 0     table_len is wrong, as in sheet_check
 *   SHEET_BAD_LENGTH     value 1     raster_len is not 4^n
 *   SHEET_BAD_NODE, SHEET_TOO_DEEP or SHEET_NEEDLESS_FORK
 *                        value p     sheet_check's first fault, at node p
 *
 * If none fails the answer is
 *
 *   SHEET_OK             value 0     the raster is written.
 *
 * Buffers:   on SHEET_OK all 4^n bytes of the raster are written, each 0 or 1;
 *            on a refusal all of them stay as they were. The table is only
 *            read.
 * Pointers:  with table_len 0 the table may be NULL, with raster_len 0 the
 *            raster; the answer is then a refusal.
 * Cost:      linear in the number of pixels and in N, with no memory that grows
 *            with either.
 *
 * Example: the table of sheet_check's example, which is called 'table'.
 *
 *     uint8_t raster[16];
 *     uint64_t answer = sheet_decode(2, table, 54, raster, sizeof raster);
 *
 *     sheet_code(answer)  is SHEET_OK
 *     sheet_value(answer) is 0
 *     raster              is 1, 1, 0, 0, 1, 1, 0, 1, and then eight times 0
 */
uint64_t sheet_decode(uint32_t n, const uint32_t *table, size_t table_len, uint8_t *raster, size_t raster_len);

/* ---- Directions and sides ---------------------------------------------- */

/* The directions: the four sides of a block, then its four corners. A call
 * that takes a side takes the first four of them. A call that takes a corner
 * takes a quadrant, SHEET_QUADRANT_NW to SHEET_QUADRANT_SE, whose numbers are
 * not those of the directions SHEET_NW to SHEET_SE. */
#define SHEET_N  0
#define SHEET_E  1
#define SHEET_S  2
#define SHEET_W  3
#define SHEET_NW 4
#define SHEET_NE 5
#define SHEET_SW 6
#define SHEET_SE 7

/* ---- sheet_neighbour --------------------------------------------------- */

/*
 * The neighbour of a node, fork or leaf, in one of the eight directions.
 *
 * Take the block of the node's own size that touches its side (SHEET_N to
 * SHEET_W), or its corner (SHEET_NW to SHEET_SE), in that direction. The
 * neighbour is the smallest node with a side at least as long as the node's own
 * which contains that block. So it is a larger leaf, or a leaf of the node's
 * own size, or a fork of the node's own size: what lies below such a fork need
 * not touch the node, and sheet_corner_leaf and sheet_diagonal_leaf say what
 * does at the corners.
 *
 * The tests, in this order; the first that fails decides:
 *
 *   SHEET_BAD_LEVEL      value 0     n is above 7
 *   SHEET_BAD_LENGTH     value 0     table_len is wrong, as in sheet_check
 *   SHEET_BAD_NODE, SHEET_TOO_DEEP or SHEET_NEEDLESS_FORK
 *                        value p     sheet_check's first fault, at node p
 *   SHEET_NO_SUCH_NODE   value node         node is N or above
 *   SHEET_BAD_DIRECTION  value direction    direction is above 7
 *   SHEET_NO_BLOCK       value 0            that block is off the sheet
 *
 * If none fails the answer is
 *
 *   SHEET_OK             value 8q + i       q is the neighbour's number, i
 *                                           its level.
 *
 * sheet_node and sheet_level take that value apart. The level says how large
 * the neighbour is, and the caller need not ask again or climb for it: its side
 * is 1u << sheet_level(answer) pixels. The level is at least that of the node
 * asked about, and a fork has that very level.
 *
 * The root has no neighbour: all its directions are SHEET_NO_BLOCK.
 *
 * Buffers:   the table is only read, and stands afterwards as it was.
 * Pointers:  with table_len 0 the table may be NULL; the answer is then a
 *            refusal.
 * Cost:      sheet_check's, and then at most 3d links for a node at depth d: d
 *            up to the root for its level, and 2d for the search.
 *
 * Example: the table of sheet_check's example, which is called 'table'.
 *
 *     uint64_t answer = sheet_neighbour(2, table, 54, 1, SHEET_E);
 *
 *     sheet_code(answer)  is SHEET_OK
 *     sheet_value(answer) is 17
 *     sheet_node(answer)  is 2, a fork of node 1's size
 *     sheet_level(answer) is 1, so that its side is 2
 *
 * The neighbour of node 1 towards SHEET_SE is node 8 at level 1, value 65, and
 * towards SHEET_NW there is none: SHEET_NO_BLOCK with value 0.
 */
uint64_t sheet_neighbour(uint32_t n, const uint32_t *table, size_t table_len, uint32_t node, uint32_t direction);

/* ---- sheet_corner_leaf ------------------------------------------------- */

/*
 * The leaf that touches a node, fork or leaf, from outside at one end of a
 * side: the leaf that holds the pixel just outside that side, at the corner.
 *
 * The side is SHEET_N, SHEET_E, SHEET_S or SHEET_W, and the corner one of the
 * two quadrants at its ends: SHEET_QUADRANT_NW and SHEET_QUADRANT_NE for
 * SHEET_N, for instance.
 *
 * The tests, in this order; the first that fails decides:
 *
 *   SHEET_BAD_LEVEL      value 0     n is above 7
 *   SHEET_BAD_LENGTH     value 0     table_len is wrong, as in sheet_check
 *   SHEET_BAD_NODE, SHEET_TOO_DEEP or SHEET_NEEDLESS_FORK
 *                        value p     sheet_check's first fault, at node p
 *   SHEET_NO_SUCH_NODE   value node      node is N or above
 *   SHEET_BAD_DIRECTION  value side      side is above 3
 *   SHEET_BAD_DIRECTION  value corner    corner is above 3, or not on that
 *                                        side
 *   SHEET_NO_BLOCK       value 0         that pixel is off the sheet
 *
 * If none fails the answer is
 *
 *   SHEET_OK             value 8q + i    q is the leaf's number, i its level.
 *
 * sheet_node and sheet_level take that value apart. The level says how large
 * the leaf is, and the caller need not ask again or climb for it: its side is
 * 1u << sheet_level(answer) pixels. The leaf may be larger or smaller than the
 * node asked about, or of its size.
 *
 * Buffers:   the table is only read, and stands afterwards as it was.
 * Pointers:  with table_len 0 the table may be NULL; the answer is then a
 *            refusal.
 * Cost:      sheet_check's, and then links in proportion to n at most.
 *
 * Example: the table of sheet_check's example, which is called 'table'.
 *
 *     uint64_t answer =
 *         sheet_corner_leaf(2, table, 54, 1, SHEET_E, SHEET_QUADRANT_NE);
 *
 *     sheet_code(answer)  is SHEET_OK
 *     sheet_value(answer) is 24
 *     sheet_node(answer)  is 3
 *     sheet_level(answer) is 0, so that it is one pixel
 *
 * At the other end of that side, SHEET_QUADRANT_SE, it is leaf 5 at level 0,
 * value 40. With SHEET_QUADRANT_NW, which is not on side SHEET_E, the answer is
 * SHEET_BAD_DIRECTION with value 0.
 */
uint64_t sheet_corner_leaf(uint32_t n, const uint32_t *table, size_t table_len, uint32_t node, uint32_t side,
                           uint32_t corner);

/* ---- sheet_diagonal_leaf ----------------------------------------------- */

/*
 * The leaf that touches a node, fork or leaf, at a corner and from outside of
 * both its sides: the leaf that holds the pixel diagonally beyond that corner.
 * The corner is a quadrant, SHEET_QUADRANT_NW to SHEET_QUADRANT_SE.
 *
 * The tests, in this order; the first that fails decides:
 *
 *   SHEET_BAD_LEVEL      value 0     n is above 7
 *   SHEET_BAD_LENGTH     value 0     table_len is wrong, as in sheet_check
 *   SHEET_BAD_NODE, SHEET_TOO_DEEP or SHEET_NEEDLESS_FORK
 *                        value p     sheet_check's first fault, at node p
 *   SHEET_NO_SUCH_NODE   value node      node is N or above
 *   SHEET_BAD_DIRECTION  value corner    corner is above 3
 *   SHEET_NO_BLOCK       value 0         that pixel is off the sheet
 *
 * If none fails the answer is
 *
 *   SHEET_OK             value 8q + i    q is the leaf's number, i its level.
 *
 * sheet_node and sheet_level take that value apart. The level says how large
 * the leaf is, and the caller need not ask again or climb for it: its side is
 * 1u << sheet_level(answer) pixels. The leaf may be larger or smaller than the
 * node asked about, or of its size.
 *
 * Buffers:   the table is only read, and stands afterwards as it was.
 * Pointers:  with table_len 0 the table may be NULL; the answer is then a
 *            refusal.
 * Cost:      sheet_check's, and then links in proportion to n at most.
 *
 * Example: the table of sheet_check's example, which is called 'table'.
 *
 *     uint64_t answer =
 *         sheet_diagonal_leaf(2, table, 54, 8, SHEET_QUADRANT_NW);
 *
 *     sheet_code(answer)  is SHEET_OK
 *     sheet_value(answer) is 9
 *     sheet_node(answer)  is 1
 *     sheet_level(answer) is 1, so that its side is 2
 */
uint64_t sheet_diagonal_leaf(uint32_t n, const uint32_t *table, size_t table_len, uint32_t node, uint32_t corner);

/* ---- sheet_distance ---------------------------------------------------- */

/* The distance of the one node of a sheet that has no white pixel. */
#define SHEET_NO_WHITE 4294967295u

/*
 * The chessboard distance from the centre of each black leaf to the nearest
 * white pixel, in half pixels.
 *
 * A block of side w whose top left pixel is in column x and row y has its
 * centre at (2x + w, 2y + w) half pixels; a white pixel in column i and row j
 * covers 2i to 2i + 2 by 2j to 2j + 2. The distance from the one to the other
 * is the larger of the two gaps along the axes, a gap being 0 inside the span.
 * A black leaf gets the least distance over all white pixels; the outside of
 * the sheet counts as black. White leaves and forks get 0. A sheet that has no
 * white pixel is one black leaf, and that gets SHEET_NO_WHITE. Every other
 * black leaf of side w gets from w to 3w - 2, an even amount above w.
 *
 * The tests, in this order; the first that fails decides:
 *
 *   SHEET_BAD_LEVEL      value 0     n is above 7
 *   SHEET_BAD_LENGTH     value 0     table_len is wrong, as in sheet_check
 *   SHEET_BAD_LENGTH     value 1     distances_len is not N = table_len / 6
 *   SHEET_BAD_NODE, SHEET_TOO_DEEP or SHEET_NEEDLESS_FORK
 *                        value p     sheet_check's first fault, at node p
 *
 * If none fails the answer is
 *
 *   SHEET_OK             value 0     the distances are written.
 *
 * Buffers:   on SHEET_OK distances[p] is written for every node p; on a refusal
 *            all words stay as they were. The table is only read.
 * Pointers:  with table_len 0 the table may be NULL, with distances_len 0 the
 *            distances; the answer is then a refusal.
 * Cost:      sheet_check's, and then for each black leaf a search of its eight
 *            neighbours and of what lies nearest below the grey ones, with no
 *            memory that grows with N.
 *
 * Example: the table of sheet_check's example, which is called 'table'.
 *
 *     uint32_t distances[9];
 *     uint64_t answer = sheet_distance(2, table, 54, distances, 9);
 *
 *     sheet_code(answer)  is SHEET_OK
 *     sheet_value(answer) is 0
 *     distances           is 0, 2, 0, 0, 0, 0, 1, 0, 0
 */
uint64_t sheet_distance(uint32_t n, const uint32_t *table, size_t table_len, uint32_t *distances,
                        size_t distances_len);

/* ---- sheet_ponds ------------------------------------------------------- */

/*
 * The register of a sheet's ponds is a slice of words, five for each pond. The
 * pond of number k has the words reg[5 * (k - 1)] to reg[5 * (k - 1) + 4]:
 *
 *     pixel count  first row  last row  first column  last column
 */
#define SHEET_POND_WORDS       5     /* the words of one pond                 */
#define SHEET_LONGEST_REGISTER 61440 /* the words of the longest register     */

/* Where a pond's words stand among its five. */
#define SHEET_PIXELS_WORD       0
#define SHEET_FIRST_ROW_WORD    1
#define SHEET_LAST_ROW_WORD     2
#define SHEET_FIRST_COLUMN_WORD 3
#define SHEET_LAST_COLUMN_WORD  4

/*
 * Which pond each black leaf is part of, and how large each pond is.
 *
 * Two black leaves are in the same pond if a chain of black leaves joins them in
 * which each shares a length of side with the next; a corner does not join. So
 * what lies under a grey neighbour is in the pond only if it touches. Ponds
 * count from 1 in the order of their first pixel, by rows: a pond comes before
 * another if it begins in a row further up or, where both begin in one row, at
 * a pixel further left. Each black leaf gets the number of its pond, white
 * leaves and forks get 0. The numbering of the nodes makes no difference.
 *
 * The register gets the entries of all ponds: how many pixels the pond has, and
 * the first and the last row and column in which it has one. Rows and columns
 * count from 0. The pixel counts add up to the black pixels of the raster.
 *
 * The tests, in this order; the first that fails decides:
 *
 *   SHEET_BAD_LEVEL      value 0     n is above 7
 *   SHEET_BAD_LENGTH     value 0     table_len is wrong, as in sheet_check
 *   SHEET_BAD_LENGTH     value 1     numbers_len is not N = table_len / 6
 *   SHEET_BAD_NODE, SHEET_TOO_DEEP or SHEET_NEEDLESS_FORK
 *                        value p     sheet_check's first fault, at node p
 *   SHEET_NO_ROOM        value 5B    reg_len is below 5B, B being the number
 *                                    of black leaves
 *
 * If none fails the answer is
 *
 *   SHEET_OK             value: the number of ponds, 0 where no pixel is
 *                        black.
 *
 * The register needs only room: any reg_len from 5B on will do, as there are
 * never more ponds than black leaves. SHEET_LONGEST_REGISTER words are room
 * enough for every table.
 *
 * Buffers:   on SHEET_OK numbers[p] is written for every node p, and with P
 *            ponds reg[0] to reg[5P - 1] are their entries; the words beyond
 *            stay as they were. On a refusal all words of both stay. The table
 *            is only read.
 * Pointers:  with table_len 0 the table may be NULL, with numbers_len 0 the
 *            numbers; the answer is then a refusal. With reg_len 0 the register
 *            may be NULL; the answer is then a refusal, or SHEET_OK with value 0
 *            for a sheet that has no black pixel.
 * Cost:      sheet_check's; a pass down the sheet that joins each black leaf with
 *            those to its north and to its west, which two lines of 128 words tell;
 *            a pass that numbers the ponds, only where one begins; one along the
 *            numbers; and a pass that enters each black leaf. No memory that grows
 *            with N.
 *
 * Example: the table of sheet_check's example, which is called 'table'.
 *
 *     uint32_t numbers[9], reg[2 * SHEET_POND_WORDS];
 *     uint64_t answer = sheet_ponds(2, table, 54, numbers, 9, reg, 10);
 *
 *     sheet_code(answer)  is SHEET_OK
 *     sheet_value(answer) is 2, the number of ponds
 *     numbers             is 0, 1, 0, 0, 0, 0, 2, 0, 0
 *     reg                 is 4, 0, 1, 0, 1, and then 1, 1, 1, 3, 3
 *
 * With room for 9 words the answer is SHEET_NO_ROOM with value 10.
 */
uint64_t sheet_ponds(uint32_t n, const uint32_t *table, size_t table_len, uint32_t *numbers, size_t numbers_len,
                     uint32_t *reg, size_t reg_len);

/* ---- The sheet file ---------------------------------------------------- */

/*
 * A sheet file is 5 + 3N bytes. Every record stands after a mark of two bytes,
 * here in hexadecimal:
 *
 *   header    51 53, then n in one byte, then N in two bytes, low byte first
 *   node      51 4E, then the node's type in one byte
 *
 * After the header comes one block: a leaf's record, or a fork's record
 * followed by four blocks, NW, NE, SW, SE. So there is one file for each
 * picture. Places in a file count from 0.
 */
#define SHEET_LONGEST_FILE 65540 /* the bytes of the longest file             */

/* ---- sheet_read -------------------------------------------------------- */

/*
 * The table of a sheet file, in preorder numbers: the table that sheet_build
 * makes of the same picture.
 *
 * Bytes are taken one at a time, and the first fault decides. At each byte that
 * the file's form asks for:
 *
 *   SHEET_FILE_ENDS      value file_len     it is not there
 *   SHEET_BAD_RECORD     value its place    it is a wrong mark byte, or a
 *                                           type above 2
 *   SHEET_BAD_LEVEL      value 2            it is n, and above 7
 *   SHEET_TOO_DEEP       value its place    it is the type of a fork where a
 *                                           block is one pixel
 *   SHEET_NEEDLESS_FORK  value its place    it is the type of the fourth like
 *                                           leaf of one fork
 *
 * After the block, in this order:
 *
 *   SHEET_BAD_COUNT      value 3            the header's N is not the number
 *                                           of node records
 *   SHEET_BAD_COUNT      value 5 + 3N       bytes are left over from there on
 *   SHEET_NO_ROOM        value 6N           table_len is below 6N
 *
 * If none fails the answer is
 *
 *   SHEET_OK             value 8N + n       the table is written.
 *
 * sheet_count and sheet_level take that value apart.
 *
 * The table needs only room, as in sheet_build. SHEET_LONGEST_TABLE words are
 * room enough for every file.
 *
 * Buffers:   on SHEET_OK table[0] to table[6N - 1] are the table, and the
 *            words beyond stay as they were; on a refusal all words stay. The
 *            file is only read.
 * Pointers:  with file_len 0 the file may be NULL; the answer is then
 *            SHEET_FILE_ENDS with value 0. With table_len 0 the table may be
 *            NULL; the answer is then a refusal.
 * Cost:      linear in the file's length, with no memory that grows with it.
 *
 * Example: the file of the table that sheet_check's example has.
 *
 *     static const uint8_t file[] = {
 *         0x51, 0x53, 2, 9, 0,
 *         0x51, 0x4E, SHEET_GRAY,  0x51, 0x4E, SHEET_BLACK,
 *         0x51, 0x4E, SHEET_GRAY,  0x51, 0x4E, SHEET_WHITE,
 *         0x51, 0x4E, SHEET_WHITE, 0x51, 0x4E, SHEET_WHITE,
 *         0x51, 0x4E, SHEET_BLACK, 0x51, 0x4E, SHEET_WHITE,
 *         0x51, 0x4E, SHEET_WHITE
 *     };
 *     uint32_t table[54];
 *     uint64_t answer = sheet_read(file, sizeof file, table, 54);
 *
 *     sheet_code(answer)  is SHEET_OK
 *     sheet_value(answer) is 74
 *     sheet_count(answer) is 9, the node count
 *     sheet_level(answer) is 2, the level
 *     table               is that table, word for word
 */
uint64_t sheet_read(const uint8_t *file, size_t file_len, uint32_t *table, size_t table_len);

/* ---- sheet_write ------------------------------------------------------- */

/*
 * The sheet file of a table. Tables of one picture have one file, whatever
 * their numbering: a fork's blocks stand in the order NW, NE, SW, SE.
 *
 * The tests, in this order; the first that fails decides:
 *
 *   SHEET_BAD_LEVEL      value 0     n is above 7
 *   SHEET_BAD_LENGTH     value 0     table_len is wrong, as in sheet_check
 *   SHEET_BAD_NODE, SHEET_TOO_DEEP or SHEET_NEEDLESS_FORK
 *                        value p     sheet_check's first fault, at node p
 *   SHEET_NO_ROOM        value 5 + 3N   file_len is below 5 + 3N
 *
 * If none fails the answer is
 *
 *   SHEET_OK             value 5 + 3N   the file is written, so many bytes.
 *
 * SHEET_LONGEST_FILE bytes are room enough for every table.
 *
 * Buffers:   on SHEET_OK file[0] to file[5 + 3N - 1] are the sheet file, and
 *            the bytes beyond stay as they were; on a refusal all bytes stay.
 *            The table is only read.
 * Pointers:  with table_len 0 the table may be NULL, with file_len 0 the file;
 *            the answer is then a refusal.
 * Cost:      linear in N, with no memory that grows with N.
 *
 * Example: the table of sheet_check's example, which is called 'table'.
 *
 *     uint8_t file[32];
 *     uint64_t answer = sheet_write(2, table, 54, file, sizeof file);
 *
 *     sheet_code(answer)  is SHEET_OK
 *     sheet_value(answer) is 32, the file's length
 *     file                is the file of sheet_read's example, byte for byte
 */
uint64_t sheet_write(uint32_t n, const uint32_t *table, size_t table_len, uint8_t *file, size_t file_len);

/* ---- sheet_centre ------------------------------------------------------ */

/*
 * Where the centre of a node, fork or leaf, lies on the ground.
 *
 * The ground place of the sheet is three numbers: the east and the north
 * coordinate of the centre of the top left pixel, as a world file has them, and
 * step, the side of a pixel. East and north lie from -16777216 to 16777216,
 * step from 1/1024 to 16384; the limits themselves are good, a NaN is not. For
 * a node of side w whose top left pixel is in column x and row y, with
 * h = 2x + w and k = 2y + w, the centre is at
 *
 *   place[0] = east + ((h - 1) / 2) * step
 *   place[1] = north - ((k - 1) / 2) * step
 *
 * each operation rounded once, to the nearest and from half way to the even
 * number ((h - 1) / 2 and (k - 1) / 2 are exact, and may end in a half); no two
 * operations are fused into one. So the centre of the pixel in column x and row
 * y is at east + x * step and north - y * step. That of the top left pixel is
 * at east and north themselves, to the last bit, but that an east of -0 becomes
 * +0; a north of -0 stays.
 *
 * The caller's floating-point environment is C's default: rounding to nearest,
 * subnormal numbers kept.
 *
 * The tests, in this order; the first that fails decides:
 *
 *   SHEET_BAD_LEVEL      value 0     n is above 7
 *   SHEET_BAD_LENGTH     value 0     table_len is wrong, as in sheet_check
 *   SHEET_BAD_NODE, SHEET_TOO_DEEP or SHEET_NEEDLESS_FORK
 *                        value p     sheet_check's first fault, at node p
 *   SHEET_NO_SUCH_NODE   value node  node is N or above
 *   SHEET_BAD_GROUND     value 0     east is out of range
 *   SHEET_BAD_GROUND     value 1     north is out of range
 *   SHEET_BAD_GROUND     value 2     step is out of range
 *   SHEET_NO_ROOM        value 2     place_len is below 2
 *
 * If none fails the answer is
 *
 *   SHEET_OK             value 0     the two numbers are written.
 *
 * Buffers:   on SHEET_OK place[0] and place[1] are the centre, east first, and
 *            the numbers beyond stay as they were; on a refusal all stay, bit
 *            for bit. The table is only read.
 * Pointers:  with table_len 0 the table may be NULL, with place_len 0 the
 *            place; the answer is then a refusal.
 * Cost:      sheet_check's, and then one link for each level above the node.
 *
 * Example: the table of sheet_check's example, which is called 'table'.
 *
 *     double place[2];
 *     uint64_t answer =
 *         sheet_centre(2, table, 54, 1, 1000.0, 2000.0, 10.0, place, 2);
 *
 *     sheet_code(answer)  is SHEET_OK
 *     sheet_value(answer) is 0
 *     place               is 1005.0, 1995.0
 */
uint64_t sheet_centre(uint32_t n, const uint32_t *table, size_t table_len, uint32_t node, double east, double north,
                      double step, double *place, size_t place_len);

#ifdef __cplusplus
}
#endif

#endif /* SHEET_H */
