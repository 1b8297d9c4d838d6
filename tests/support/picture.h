/* Pictures to make sheets of: bytes 0 white or 1 black, row by row. */
#ifndef SUPPORT_PICTURE_H
#define SUPPORT_PICTURE_H

#include <stdint.h>

#include "support/dice.h"

/* A side of 128 pixels, level 7. */
enum { PICTURE_MOST_PIXELS = 128 * 128 };

enum picture_kind {
    PICTURE_NOISE,      /* each pixel by itself, with a share of black     */
    PICTURE_BLOBS,      /* a few black and white discs                     */
    PICTURE_BLOCKS,     /* a few blocks of the quadtree turned             */
    PICTURE_ONE_COLOUR, /* one leaf                                        */
    PICTURE_CHESSBOARD, /* no two pixels side by side alike: every block   */
                        /* is a fork, the longest table of its level       */
    PICTURE_RINGS,      /* rings round one point, of one width             */
    PICTURE_SPIRAL,     /* one arm that winds round the middle             */
    PICTURE_COMB,       /* teeth that stand on a spine along one edge      */
    PICTURE_COASTLINE,  /* land on one side of a winding line, with islets */
    PICTURE_LONE_PIXEL, /* black but for one white pixel in a corner       */
    PICTURE_KINDS
};

struct picture {
    uint32_t level;
    uint8_t pixels[PICTURE_MOST_PIXELS];
};

/* Draws a picture of side 2^level. */
void picture_draw(struct picture *pic, enum picture_kind kind, uint32_t level, struct dice *d);

/* The picture of level 0 to 2 whose pixels are the bits of a number, so that
 * the numbers below 2^(4^level) give every picture of the level. */
void picture_of_bits(struct picture *pic, uint32_t level, uint32_t bits);

/* Draws black squares of this width as on a chessboard, each of them with a
 * chance of three in four: they touch at corners alone. */
void picture_draw_squares(struct picture *pic, uint32_t level, uint32_t width, struct dice *d);

/* Draws black everywhere but at one pixel. */
void picture_draw_lone_pixel(struct picture *pic, uint32_t level, uint32_t x, uint32_t y);

#endif
