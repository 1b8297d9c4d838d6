#include "support/picture.h"

static uint32_t side_of(const struct picture *pic)
{
    return UINT32_C(1) << pic->level;
}

static uint8_t *pixel(struct picture *pic, uint32_t x, uint32_t y)
{
    return &pic->pixels[y * side_of(pic) + x];
}

static void fill(struct picture *pic, uint8_t colour)
{
    for (uint32_t i = 0; i < side_of(pic) * side_of(pic); i++)
        pic->pixels[i] = colour;
}

static void draw_noise(struct picture *pic, struct dice *d)
{
    uint32_t share = 1 + dice_below(d, 15);
    for (uint32_t i = 0; i < side_of(pic) * side_of(pic); i++)
        pic->pixels[i] = dice_below(d, 16) < share;
}

static void draw_disc(struct picture *pic, uint8_t colour, struct dice *d)
{
    int32_t side = (int32_t)side_of(pic);
    int32_t i = (int32_t)dice_below(d, (uint32_t)side), j = (int32_t)dice_below(d, (uint32_t)side);
    int32_t radius = 1 + (int32_t)dice_below(d, (uint32_t)side / 4 + 1);
    for (int32_t y = 0; y < side; y++)
        for (int32_t x = 0; x < side; x++)
            if ((x - i) * (x - i) + (y - j) * (y - j) < radius * radius)
                *pixel(pic, (uint32_t)x, (uint32_t)y) = colour;
}

static void draw_blobs(struct picture *pic, struct dice *d)
{
    fill(pic, 0);
    for (uint32_t discs = 1 + dice_below(d, 8); discs > 0; discs--)
        draw_disc(pic, dice_below(d, 3) != 0, d);
}

static void turn_block(struct picture *pic, struct dice *d)
{
    uint32_t level = dice_below(d, pic->level + 1);
    uint32_t blocks = UINT32_C(1) << (pic->level - level), side = UINT32_C(1) << level;
    uint32_t left = side * dice_below(d, blocks), top = side * dice_below(d, blocks);
    for (uint32_t y = top; y < top + side; y++)
        for (uint32_t x = left; x < left + side; x++)
            *pixel(pic, x, y) ^= 1;
}

static void draw_blocks(struct picture *pic, struct dice *d)
{
    fill(pic, (uint8_t)dice_below(d, 2));
    for (uint32_t blocks = 1 + dice_below(d, 6); blocks > 0; blocks--)
        turn_block(pic, d);
}

static void draw_chessboard(struct picture *pic, struct dice *d)
{
    uint32_t first = dice_below(d, 2);
    for (uint32_t y = 0; y < side_of(pic); y++)
        for (uint32_t x = 0; x < side_of(pic); x++)
            *pixel(pic, x, y) = (x + y + first) % 2;
}

static uint32_t gap(uint32_t a, uint32_t b)
{
    return a > b ? a - b : b - a;
}

static uint32_t larger(uint32_t a, uint32_t b)
{
    return a > b ? a : b;
}

static void draw_rings(struct picture *pic, struct dice *d)
{
    uint32_t side = side_of(pic), width = 1 + dice_below(d, side / 4 + 1);
    uint32_t i = dice_below(d, side), j = dice_below(d, side), first = dice_below(d, 2);
    for (uint32_t y = 0; y < side; y++)
        for (uint32_t x = 0; x < side; x++)
            *pixel(pic, x, y) = (larger(gap(x, i), gap(y, j)) / width + first) % 2;
}

/* Which of the four triangles of the sheet a pixel lies in, clockwise. */
static uint32_t triangle(uint32_t side, uint32_t x, uint32_t y)
{
    return x > y ? (x + y < side ? 0 : 1) : x + y >= side ? 2 : 3;
}

/* Rings round the middle that move outwards by a fourth of the arm's way in
 * each triangle, so that they join to one arm. */
static void draw_spiral(struct picture *pic, struct dice *d)
{
    uint32_t side = side_of(pic), width = UINT32_C(1) << dice_below(d, 3), first = dice_below(d, 2);
    for (uint32_t y = 0; y < side; y++)
        for (uint32_t x = 0; x < side; x++) {
            uint32_t ring = larger(gap(2 * x + 1, side), gap(2 * y + 1, side)) / 2;
            *pixel(pic, x, y) = ((4 * ring + 2 * width * triangle(side, x, y)) / (4 * width) + first) % 2;
        }
}

static void draw_comb(struct picture *pic, struct dice *d)
{
    uint32_t side = side_of(pic), width = 1 + dice_below(d, side / 4 + 1), spine = dice_below(d, side);
    uint32_t turned = dice_below(d, 2), first = dice_below(d, 2);
    for (uint32_t y = 0; y < side; y++)
        for (uint32_t x = 0; x < side; x++) {
            uint32_t along = turned ? y : x, across = turned ? x : y;
            *pixel(pic, x, y) = (across >= spine && along / width % 2 == 1) != first;
        }
}

static void draw_islets(struct picture *pic, struct dice *d)
{
    for (uint32_t islets = dice_below(d, 4); islets > 0; islets--)
        *pixel(pic, dice_below(d, side_of(pic)), dice_below(d, side_of(pic))) ^= 1;
}

static void draw_coastline(struct picture *pic, struct dice *d)
{
    uint32_t side = side_of(pic), shore = dice_below(d, side + 1), turned = dice_below(d, 2), land = dice_below(d, 2);
    for (uint32_t along = 0; along < side; along++) {
        uint32_t moved = shore + dice_below(d, 5);
        shore = moved < 2 ? 0 : moved > side + 2 ? side : moved - 2;
        for (uint32_t across = 0; across < side; across++)
            *pixel(pic, turned ? across : along, turned ? along : across) = (across < shore) == land;
    }
    draw_islets(pic, d);
}

void picture_of_bits(struct picture *pic, uint32_t level, uint32_t bits)
{
    pic->level = level;
    for (uint32_t i = 0; i < side_of(pic) * side_of(pic); i++)
        pic->pixels[i] = bits >> i & 1;
}

static void draw_square(struct picture *pic, uint32_t left, uint32_t top, uint32_t width)
{
    for (uint32_t y = top; y < top + width && y < side_of(pic); y++)
        for (uint32_t x = left; x < left + width && x < side_of(pic); x++)
            *pixel(pic, x, y) = 1;
}

void picture_draw_squares(struct picture *pic, uint32_t level, uint32_t width, struct dice *d)
{
    uint32_t first = dice_below(d, 2);
    pic->level = level;
    fill(pic, 0);
    for (uint32_t y = 0; y < side_of(pic); y += width)
        for (uint32_t x = 0; x < side_of(pic); x += width)
            if ((x / width + y / width + first) % 2 == 0 && dice_below(d, 4) != 0)
                draw_square(pic, x, y, width);
}

void picture_draw_lone_pixel(struct picture *pic, uint32_t level, uint32_t x, uint32_t y)
{
    pic->level = level;
    fill(pic, 1);
    *pixel(pic, x, y) = 0;
}

static void draw_lone_pixel(struct picture *pic, struct dice *d)
{
    uint32_t last = side_of(pic) - 1;
    picture_draw_lone_pixel(pic, pic->level, last * dice_below(d, 2), last * dice_below(d, 2));
}

void picture_draw(struct picture *pic, enum picture_kind kind, uint32_t level, struct dice *d)
{
    pic->level = level;
    switch (kind) {
    case PICTURE_NOISE: draw_noise(pic, d); break;
    case PICTURE_BLOBS: draw_blobs(pic, d); break;
    case PICTURE_BLOCKS: draw_blocks(pic, d); break;
    case PICTURE_CHESSBOARD: draw_chessboard(pic, d); break;
    case PICTURE_RINGS: draw_rings(pic, d); break;
    case PICTURE_SPIRAL: draw_spiral(pic, d); break;
    case PICTURE_COMB: draw_comb(pic, d); break;
    case PICTURE_COASTLINE: draw_coastline(pic, d); break;
    case PICTURE_LONE_PIXEL: draw_lone_pixel(pic, d); break;
    default: fill(pic, (uint8_t)dice_below(d, 2)); break;
    }
}
