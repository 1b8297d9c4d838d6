/*
 * sheet_build against the second implementation, and against answers worked out
 * by hand. The raster is lent between guards and must not be written; the table
 * is lent full of a pattern, and every word of it must be as wanted afterwards,
 * also beyond the nodes and after a refusal.
 */
#include <inttypes.h>
#include <string.h>

#include "second/second.h"
#include "sheet.h"
#include "support/lender.h"
#include "support/met.h"
#include "support/picture.h"
#include "support/report.h"
#include "support/sample.h"
#include "support/words.h"

enum { LEAST_INPUTS = 200000, RASTER_ROOM = 4 * 65536, TABLE_ROOM_WORDS = 200004 };

static struct lender raster_lender, table_lender;
static struct picture pic;

static size_t pixels_of(uint32_t level)
{
    return (size_t)1 << (2 * level);
}

/* Lends the raster and room for a table, and holds the answer and the table
 * against those of the second implementation. */
static int compare(uint32_t level, const uint8_t *raster, size_t raster_len, size_t table_len)
{
    static uint32_t wanted_table[TABLE_ROOM_WORDS];
    uint8_t *lent_raster = lend_to_read(&raster_lender, raster, raster_len, met_turn());
    uint32_t *lent_table = lend_pattern(&table_lender, table_len * sizeof *wanted_table, met_turn());
    memcpy(wanted_table, lent_table, table_len * sizeof *wanted_table);
    uint64_t wanted = second_build(level, raster, raster_len, wanted_table, table_len);
    uint64_t given = sheet_build(level, lent_raster, raster_len, lent_table, table_len);
    return met_answer(wanted, given, lent_unchanged(&raster_lender) && lent_holds(&table_lender, wanted_table),
                      "level %" PRIu32 ", %zu pixels, room for %zu words", level, raster_len, table_len);
}

static size_t words_needed(uint32_t level, const uint8_t *raster)
{
    return (size_t)(second_build(level, raster, pixels_of(level), NULL, 0) / 256);
}

static void compare_picture(struct dice *d)
{
    size_t needed = words_needed(pic.level, pic.pixels);
    compare(pic.level, pic.pixels, pixels_of(pic.level), sample_room(needed, d));
}

/* ---- answers worked out by hand */

struct vector {
    const char *name;
    uint32_t level;
    uint8_t raster[64];
    size_t room;
    uint32_t code, value;
    size_t nodes;
    uint32_t words[10 * 6];
};

static const struct vector vectors[] = {
    {"sheet A", 2, {1, 1, 0, 0, 1, 1, 0, 1}, 54, 0, 9, 9, {SHEET_A}},
    {"sheet A in more room than it needs", 2, {1, 1, 0, 0, 1, 1, 0, 1}, 59, 0, 9, 9, {SHEET_A}},
    {"sheet A in a room of one word less", 2, {1, 1, 0, 0, 1, 1, 0, 1}, 53, 9, 54, 0, {0}},
    {"sheet A in no room", 2, {1, 1, 0, 0, 1, 1, 0, 1}, 0, 9, 54, 0, {0}},
    {"a bad pixel comes before no room", 2, {1, 1, 0, 0, 1, 1, 0, 2, 2}, 0, 8, 7, 0, {0}},
    {"one black pixel", 0, {1}, 6, 0, 1, 1, {LEAF(NO, B)}},
    {"one white pixel", 0, {0}, 7, 0, 1, 1, {LEAF(NO, W)}},
    {"one pixel of 2", 0, {2}, 6, 8, 0, 0, {0}},
    {"four black pixels are one leaf", 1, {1, 1, 1, 1}, 30, 0, 1, 1, {LEAF(NO, B)}},
    {"quarters stand in the order NW, NE, SW, SE", 1, {0, 1, 0, 0}, 30, 0, 5, 5,
     {FORK(NO, 1, 2, 3, 4), LEAF(0, W), LEAF(0, B), LEAF(0, W), LEAF(0, W)}},
    {"the estate of two ponds", 3,
     {1, 1, 1, 1, 0, 0, 1, 1, 1, 1, 1, 1, 0, 0, 1, 1, 1, 1, 1, 1, 0, 0, 1, 1, 1, 1, 1, 1, 0, 0, 1, 1}, 54, 0, 9, 9,
     {ESTATE}},
};

static int gives(const struct vector *v)
{
    uint32_t wanted_table[10 * 6];
    uint8_t *raster = lend_to_read(&raster_lender, v->raster, pixels_of(v->level), met_turn());
    uint32_t *table = lend_pattern(&table_lender, v->room * sizeof *table, met_turn());
    memcpy(wanted_table, table, v->room * sizeof *table);
    memcpy(wanted_table, v->words, v->nodes * SHEET_NODE_WORDS * sizeof *table);
    uint64_t given = sheet_build(v->level, raster, pixels_of(v->level), table, v->room);
    return met_answer(packed(v->code, v->value), given,
                      lent_unchanged(&raster_lender) && lent_holds(&table_lender, wanted_table), "%s", v->name);
}

static void run_vectors(void)
{
    for (size_t i = 0; i < sizeof vectors / sizeof *vectors; i++)
        report_check(vectors[i].name, gives(&vectors[i]));
}

static void run_empty_slices(void)
{
    static const uint8_t pixel[] = {1};
    report_check("no raster and no table is a bad length", sheet_build(7, NULL, 0, NULL, 0) == packed(2, 1));
    report_check("no raster at level 8 is a bad level", sheet_build(8, NULL, 0, NULL, 0) == packed(1, 0));
    report_check("no table is no room", sheet_build(0, pixel, 1, NULL, 0) == packed(9, 6));
}

static void run_longest_table(void)
{
    struct dice d = dice_from(7);
    picture_draw(&pic, PICTURE_CHESSBOARD, 7, &d);
    report_check("the longest table needs 131070 words", words_needed(7, pic.pixels) == SHEET_LONGEST_TABLE);
    report_check("the longest table", compare(7, pic.pixels, pixels_of(7), SHEET_LONGEST_TABLE));
    report_check("the longest table in a word less", compare(7, pic.pixels, pixels_of(7), SHEET_LONGEST_TABLE - 1));
    report_check("room for more than the longest table", compare(7, pic.pixels, pixels_of(7), TABLE_ROOM_WORDS));
}

/* ---- the second implementation */

/* Every picture of the levels 0, 1 and 2, in room for some words. */
static void compare_every_small_picture(void)
{
    uint8_t raster[16];
    struct dice d = dice_from(12);
    for (uint32_t level = 0; level <= 2; level++)
        for (uint32_t bits = 0; bits < UINT32_C(1) << pixels_of(level); bits++) {
            for (size_t i = 0; i < pixels_of(level); i++)
                raster[i] = (uint8_t)(bits >> i & 1);
            compare(level, raster, pixels_of(level), sample_room(words_needed(level, raster), &d));
        }
}

static void compare_drawn_pictures(void)
{
    struct dice d = dice_from(13);
    for (uint32_t i = 0; i < 120000; i++) {
        sample_picture(&pic, &d);
        compare_picture(&d);
    }
}

/* Pictures of the two highest levels, of every kind. */
static void compare_large_pictures(void)
{
    struct dice d = dice_from(14);
    for (uint32_t i = 0; i < 400; i++) {
        picture_draw(&pic, (enum picture_kind)(i % PICTURE_KINDS), 6 + i / PICTURE_KINDS % 2, &d);
        compare_picture(&d);
    }
}

/* One pixel of the other colour, at every place of every level up to 5. */
static void compare_lone_pixels(void)
{
    struct dice d = dice_from(15);
    for (uint32_t level = 0; level <= 5; level++)
        for (size_t i = 0; i < pixels_of(level); i++) {
            pic.level = level;
            memset(pic.pixels, (int)(i % 2), pixels_of(level));
            pic.pixels[i] ^= 1;
            compare_picture(&d);
        }
}

/* Every room from none to a little more than is needed. */
static void compare_rooms(void)
{
    struct dice d = dice_from(16);
    for (uint32_t level = 0; level <= 3; level++)
        for (uint32_t kind = 0; kind < PICTURE_KINDS; kind++) {
            picture_draw(&pic, (enum picture_kind)kind, level, &d);
            for (size_t room = 0; room <= words_needed(level, pic.pixels) + 8; room++)
                compare(level, pic.pixels, pixels_of(level), room);
        }
}

/* Lengths round the right one of each level, at every level; at times the first
 * pixel is bad too. */
static void compare_lengths(void)
{
    static uint8_t raster[RASTER_ROOM];
    for (uint32_t level = 0; level <= 8; level++)
        for (uint32_t other = 0; other <= 8; other++)
            for (size_t off = 0; off < 5; off++) {
                raster[0] = (uint8_t)(off == 4 ? 3 : 1);
                compare(level, raster, off < 4 ? pixels_of(other) + off - 1 : pixels_of(other) + level, 30 * off);
            }
}

static const uint8_t bad_pixels[] = {2, 3, 4, 127, 128, 129, 254, 255};

static uint8_t bad_pixel(struct dice *d)
{
    return bad_pixels[dice_below(d, sizeof bad_pixels)];
}

/* A bad pixel at every place of every level up to 4, and then a second one
 * anywhere. */
static void compare_bad_pixels(void)
{
    struct dice d = dice_from(17);
    for (uint32_t level = 0; level <= 4; level++)
        for (size_t i = 0; i < pixels_of(level) * sizeof bad_pixels; i++) {
            picture_draw(&pic, (enum picture_kind)dice_below(&d, PICTURE_KINDS), level, &d);
            pic.pixels[i / sizeof bad_pixels] = bad_pixels[i % sizeof bad_pixels];
            compare(level, pic.pixels, pixels_of(level), dice_below(&d, 300));
            pic.pixels[dice_below(&d, (uint32_t)pixels_of(level))] = bad_pixel(&d);
            compare(level, pic.pixels, pixels_of(level), dice_below(&d, 300));
        }
}

static void compare_any_bad_pixels(void)
{
    struct dice d = dice_from(18);
    for (uint32_t i = 0; i < 10000; i++) {
        sample_picture(&pic, &d);
        for (uint32_t bad = dice_below(&d, 3) + 1; bad > 0; bad--)
            pic.pixels[dice_below(&d, (uint32_t)pixels_of(pic.level))] = bad_pixel(&d);
        compare(pic.level, pic.pixels, pixels_of(pic.level), dice_below(&d, 100));
    }
}

/* Levels above 7, with lengths that a shift too far might take for right. */
static void compare_hostile_levels(void)
{
    static uint8_t raster[RASTER_ROOM];
    struct dice d = dice_from(19);
    for (uint32_t i = 0; i < 4000; i++) {
        uint32_t level = sample_hostile_level(&d);
        size_t length = i % 2 ? pixels_of(level % 9) : (size_t)1 << (2 * level % 18);
        raster[0] = (uint8_t)dice_below(&d, 3);
        compare(level, raster, length, dice_below(&d, 60));
    }
    compare(8, raster, pixels_of(8), 200000);
    compare(9, raster, pixels_of(9), 200000);
}

int main(void)
{
    static const uint32_t codes[] = {0, 1, 2, 8, 9};
    raster_lender = lender_open(RASTER_ROOM);
    table_lender = lender_open(TABLE_ROOM_WORDS * sizeof(uint32_t));
    run_vectors();
    run_empty_slices();
    run_longest_table();
    met_group("every picture of the levels 0, 1 and 2", compare_every_small_picture);
    met_group("pictures of every kind", compare_drawn_pictures);
    met_group("pictures of levels 6 and 7", compare_large_pictures);
    met_group("a lone pixel at every place", compare_lone_pixels);
    met_group("every room for the table", compare_rooms);
    met_group("lengths of the raster", compare_lengths);
    met_group("a bad pixel at every place", compare_bad_pixels);
    met_group("bad pixels anywhere", compare_any_bad_pixels);
    met_group("hostile levels", compare_hostile_levels);
    met_report(codes, sizeof codes / sizeof *codes, LEAST_INPUTS);
    return report_end();
}
