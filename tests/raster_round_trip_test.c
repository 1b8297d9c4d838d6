/*
 * sheet_build and sheet_decode, each taking back what the other did: a picture
 * comes back from its table, and every table of a picture leads to the preorder
 * table of that picture.
 */
#include <inttypes.h>
#include <string.h>

#include "sheet.h"
#include "support/met.h"
#include "support/report.h"
#include "support/sample.h"
#include "support/table.h"

enum { SHEETS = 30000 };

static struct picture pic;
static struct table preorder, renumbered;

static size_t pixels_of(uint32_t level)
{
    return (size_t)1 << (2 * level);
}

/* The picture is built, checked and decoded. */
static void compare_picture(void)
{
    static uint32_t words[SHEET_LONGEST_TABLE];
    static uint8_t raster[PICTURE_MOST_PIXELS];
    size_t pixels = pixels_of(pic.level);
    uint64_t built = sheet_build(pic.level, pic.pixels, pixels, words, SHEET_LONGEST_TABLE);
    size_t length = (size_t)sheet_value(built) * SHEET_NODE_WORDS;
    uint64_t checked = sheet_check(pic.level, words, length);
    uint64_t decoded = sheet_decode(pic.level, words, length, raster, pixels);
    met_answer(packed(SHEET_OK, table_count(&preorder)), built, checked == built, "level %" PRIu32 ", built", pic.level);
    met_answer(packed(SHEET_OK, 0), decoded, memcmp(raster, pic.pixels, pixels) == 0, "level %" PRIu32 ", decoded",
               pic.level);
}

/* Another table of the picture is decoded, and built again. */
static void compare_renumbered(void)
{
    static uint32_t words[SHEET_LONGEST_TABLE];
    static uint8_t raster[PICTURE_MOST_PIXELS];
    size_t pixels = pixels_of(pic.level), size = preorder.length * sizeof *words;
    uint64_t decoded = sheet_decode(pic.level, renumbered.words, renumbered.length, raster, pixels);
    uint64_t built = sheet_build(pic.level, raster, pixels, words, preorder.length);
    met_answer(packed(SHEET_OK, 0), decoded, memcmp(raster, pic.pixels, pixels) == 0,
               "level %" PRIu32 ", decoded from another numbering", pic.level);
    met_answer(packed(SHEET_OK, table_count(&preorder)), built, memcmp(words, preorder.words, size) == 0,
               "level %" PRIu32 ", built again", pic.level);
}

static void compare_sheets(void)
{
    struct dice d = dice_from(31);
    for (uint32_t i = 0; i < SHEETS; i++) {
        sample_picture(&pic, &d);
        table_of_picture(&preorder, &pic);
        table_of_picture(&renumbered, &pic);
        table_renumber(&renumbered, (enum numbering)(i % NUMBERINGS), &d);
        compare_picture();
        compare_renumbered();
    }
}

int main(void)
{
    met_group("raster to table and back, table to raster and back", compare_sheets);
    return report_end();
}
