/*
 * sheet_decode against the second implementation, and against answers worked out
 * by hand. The table is lent between guards and must not be written; the raster
 * is lent full of a pattern without a 0 or a 1, and every byte of it must be as
 * wanted afterwards, also after a refusal.
 */
#include <inttypes.h>
#include <string.h>

#include "second/second.h"
#include "sheet.h"
#include "support/lender.h"
#include "support/met.h"
#include "support/report.h"
#include "support/sample.h"
#include "support/table.h"
#include "support/words.h"

enum { LEAST_INPUTS = 200000, RASTER_ROOM = 4 * 65536 };

static struct lender table_lender, raster_lender;
static struct table table;

/* How often the table's length, and how often the raster's, decided. */
static uint32_t met_length[2];

static size_t pixels_of(uint32_t level)
{
    return (size_t)1 << (2 * level);
}

/* Lends the table and room for a raster, and holds the answer and the raster
 * against those of the second implementation. */
static int compare(uint32_t level, const uint32_t *words, size_t length, size_t raster_len)
{
    static uint8_t wanted_raster[RASTER_ROOM];
    uint32_t *lent_table = lend_to_read(&table_lender, words, length * sizeof *words, met_turn());
    uint8_t *lent_raster = lend_pattern(&raster_lender, raster_len, met_turn());
    memcpy(wanted_raster, lent_raster, raster_len);
    uint64_t wanted = second_decode(level, words, length, wanted_raster, raster_len);
    uint64_t given = sheet_decode(level, lent_table, length, lent_raster, raster_len);
    if (wanted % 256 == SHEET_BAD_LENGTH)
        met_length[wanted / 256]++;
    return met_answer(wanted, given, lent_unchanged(&table_lender) && lent_holds(&raster_lender, wanted_raster),
                      "level %" PRIu32 ", %zu words, room for %zu pixels", level, length, raster_len);
}

/* ---- answers worked out by hand */

static const uint32_t sheet_a[] = {SHEET_A};

/* Sheet A from SE to NW: the sons of a fork stand in the order of falling
 * numbers. */
static const uint32_t sheet_a_backwards[] = {
    FORK(NO, 8, 3, 2, 1), LEAF(0, W), LEAF(0, W), FORK(0, 7, 6, 5, 4), LEAF(3, B),
    LEAF(3, W), LEAF(3, W), LEAF(3, W), LEAF(0, B),
};

/* Does decoding this table of level 2 give sheet A's rows? */
static int gives_sheet_a(const uint32_t *words)
{
    static const uint8_t rows[16] = {1, 1, 0, 0, 1, 1, 0, 1};
    uint32_t *lent_table = lend_to_read(&table_lender, words, sizeof sheet_a, met_turn());
    uint8_t *raster = lend_pattern(&raster_lender, sizeof rows, met_turn());
    uint64_t given = sheet_decode(2, lent_table, 54, raster, sizeof rows);
    return met_answer(packed(0, 0), given, lent_unchanged(&table_lender) && lent_holds(&raster_lender, rows), "sheet A");
}

/* Is sheet A refused at this level, with these lengths? */
static int refuses_sheet_a(uint32_t level, size_t length, size_t raster_len, uint64_t wanted)
{
    uint32_t *lent_table = lend_to_read(&table_lender, sheet_a, length * sizeof *sheet_a, met_turn());
    uint8_t *raster = lend_pattern(&raster_lender, raster_len, met_turn());
    uint64_t given = sheet_decode(level, lent_table, length, raster, raster_len);
    return met_answer(wanted, given, lent_unchanged(&table_lender) && lent_unchanged(&raster_lender), "sheet A");
}

static void run_by_hand(void)
{
    report_check("sheet A", gives_sheet_a(sheet_a));
    report_check("sheet A from SE to NW", gives_sheet_a(sheet_a_backwards));
    report_check("sheet A at level 1 is too deep at 2", refuses_sheet_a(1, 54, 4, packed(4, 2)));
    report_check("a byte too few", refuses_sheet_a(2, 54, 15, packed(2, 1)));
    report_check("a byte too many", refuses_sheet_a(2, 54, 17, packed(2, 1)));
    report_check("the table's length comes first", refuses_sheet_a(2, 53, 17, packed(2, 0)));
    report_check("the raster's length comes before the check", refuses_sheet_a(1, 54, 16, packed(2, 1)));
    report_check("the level comes before the lengths", refuses_sheet_a(8, 53, 17, packed(1, 0)));
    report_check("no table and no raster", sheet_decode(7, NULL, 0, NULL, 0) == packed(2, 0));
    report_check("no raster", sheet_decode(2, sheet_a, 54, NULL, 0) == packed(2, 1));
}

/* ---- the second implementation */

static const struct {
    enum sample sample;
    const char *name;
    uint32_t inputs;
    int all_accepted;
} samples[] = {
    {SAMPLE_PREORDER, "sheets in preorder", 60000, 1},
    {SAMPLE_RENUMBERED, "sheets in other numberings", 60000, 1},
    {SAMPLE_DAMAGED, "one to three words damaged", 40000, 0},
    {SAMPLE_ORPHAN, "a node that no fork has", 10000, 0},
    {SAMPLE_DOUBLE_SON, "a son named twice", 10000, 0},
    {SAMPLE_SON_BELOW_FATHER, "a son before its father", 10000, 0},
    {SAMPLE_LOWER_LEVEL, "a lower level", 10000, 0},
    {SAMPLE_DEEP_FORK, "a fork of one pixel", 10000, 0},
    {SAMPLE_NEEDLESS_FORK, "a needless fork", 10000, 0},
    {SAMPLE_RANDOM_WORDS, "random words", 5000, 0},
    {SAMPLE_CUT_LENGTH, "cut tables", 5000, 0},
    {SAMPLE_HOSTILE_LEVEL, "hostile levels", 5000, 0},
};

static void run_samples(void)
{
    for (size_t i = 0; i < sizeof samples / sizeof *samples; i++) {
        struct dice d = dice_from(2000 + i);
        uint32_t accepted = met.code[SHEET_OK];
        met_begin_group();
        for (uint32_t n = 0; n < samples[i].inputs; n++) {
            sample_make(&table, samples[i].sample, &d);
            compare(table.level, table.words, table.length, pixels_of(table.level % 9));
        }
        met_end_group(samples[i].name);
        if (samples[i].all_accepted)
            report_check("  all of them are accepted", met.code[SHEET_OK] - accepted == samples[i].inputs);
    }
}

/* Tables of every kind with rasters whose length is wrong, or right by chance. */
static void compare_raster_lengths(void)
{
    struct dice d = dice_from(21);
    for (uint32_t i = 0; i < 20000; i++) {
        sample_make(&table, (enum sample)(i % SAMPLES), &d);
        size_t right = pixels_of(table.level % 9);
        size_t lengths[] = {right - 1, right + 1, right / 4, right * 4, 0, right / 2, dice_below(&d, 300)};
        compare(table.level, table.words, table.length, lengths[dice_below(&d, sizeof lengths / sizeof *lengths)]);
    }
}

/* Sheet A with every length of table and raster, at every level. */
static void compare_all_lengths(void)
{
    static const size_t lengths[] = {0, 1, 3, 4, 5, 15, 16, 17, 63, 64, 65, 16383, 16384, 16385, 65536};
    for (uint32_t level = 0; level <= 8; level++)
        for (size_t length = 0; length <= 54; length++)
            for (size_t i = 0; i < sizeof lengths / sizeof *lengths; i++)
                compare(level, sheet_a, length, lengths[i]);
}

/* Tables of the two highest levels, of every kind and in every numbering. */
static void compare_large_sheets(void)
{
    static struct picture pic;
    struct dice d = dice_from(22);
    for (uint32_t i = 0; i < 400; i++) {
        picture_draw(&pic, (enum picture_kind)(i % PICTURE_KINDS), 6 + i / PICTURE_KINDS % 2, &d);
        table_of_picture(&table, &pic);
        if (i % 4 != 0)
            table_renumber(&table, (enum numbering)(i % NUMBERINGS), &d);
        compare(pic.level, table.words, table.length, pixels_of(pic.level));
    }
}

int main(void)
{
    static const uint32_t codes[] = {0, 1, 2, 3, 4, 5};
    table_lender = lender_open(sizeof table.words);
    raster_lender = lender_open(RASTER_ROOM);
    run_by_hand();
    run_samples();
    met_group("rasters of wrong lengths", compare_raster_lengths);
    met_group("sheet A in all lengths", compare_all_lengths);
    met_group("sheets of levels 6 and 7", compare_large_sheets);
    met_report(codes, sizeof codes / sizeof *codes, LEAST_INPUTS);
    met_often("code 2 with value", 0, met_length[0]);
    met_often("code 2 with value", 1, met_length[1]);
    return report_end();
}
