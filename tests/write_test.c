/*
 * sheet_write against the second implementation, and against answers worked out
 * by hand. The table is lent between guards and must not be written; the file is
 * lent full of a pattern, and every byte of it must be as wanted afterwards, also
 * beyond the file's length and after a refusal.
 */
#include <inttypes.h>
#include <string.h>

#include "second/second.h"
#include "sheet.h"
#include "support/file.h"
#include "support/lender.h"
#include "support/met.h"
#include "support/report.h"
#include "support/sample.h"
#include "support/table.h"
#include "support/words.h"

enum { LEAST_INPUTS = 200000 };

static struct lender table_lender, file_lender;
static struct table table;

/* Lends the table and room for a file, and holds the answer and the file
 * against those of the second implementation. */
static int compare(uint32_t level, const uint32_t *words, size_t length, size_t file_len)
{
    static uint8_t wanted_file[FILE_ROOM];
    uint32_t *lent_table = lend_to_read(&table_lender, words, length * sizeof *words, met_turn());
    uint8_t *lent_file = lend_pattern(&file_lender, file_len, met_turn());
    memcpy(wanted_file, lent_file, file_len);
    uint64_t wanted = second_write(level, words, length, wanted_file, file_len);
    uint64_t given = sheet_write(level, lent_table, length, lent_file, file_len);
    return met_answer(wanted, given, lent_unchanged(&table_lender) && lent_holds(&file_lender, wanted_file),
                      "level %" PRIu32 ", %zu words, room for %zu bytes", level, length, file_len);
}

static size_t bytes_needed(size_t length)
{
    return FILE_HEADER_SIZE + length / SHEET_NODE_WORDS * FILE_RECORD_SIZE;
}

static void compare_table(struct dice *d)
{
    compare(table.level, table.words, table.length, sample_room(bytes_needed(table.length), d));
}

/* ---- answers worked out by hand */

#define NODE(type) 0x51, 0x4e, type

static const uint32_t sheet_a[] = {SHEET_A};

/* Sheet A from SE to NW: the sons of a fork stand in the order of falling
 * numbers. */
static const uint32_t sheet_a_backwards[] = {
    FORK(NO, 8, 3, 2, 1), LEAF(0, W), LEAF(0, W), FORK(0, 7, 6, 5, 4), LEAF(3, B),
    LEAF(3, W), LEAF(3, W), LEAF(3, W), LEAF(0, B),
};

/* Does writing this table at level 2 give sheet A's 32 bytes, and leave those
 * beyond? */
static int gives_sheet_a(const uint32_t *words, size_t room)
{
    static const uint8_t bytes[] = {0x51, 0x53, 2, 9, 0, NODE(2), NODE(1), NODE(2), NODE(0),
                                    NODE(0), NODE(0), NODE(1), NODE(0), NODE(0)};
    uint8_t wanted_file[64];
    uint32_t *lent_table = lend_to_read(&table_lender, words, sizeof sheet_a, met_turn());
    uint8_t *file = lend_pattern(&file_lender, room, met_turn());
    memcpy(wanted_file, file, room);
    memcpy(wanted_file, bytes, sizeof bytes);
    uint64_t given = sheet_write(2, lent_table, 54, file, room);
    return met_answer(packed(0, 32), given, lent_unchanged(&table_lender) && lent_holds(&file_lender, wanted_file),
                      "sheet A");
}

/* Is sheet A refused at this level, with these lengths? */
static int refuses_sheet_a(uint32_t level, size_t length, size_t room, uint64_t wanted)
{
    uint32_t *lent_table = lend_to_read(&table_lender, sheet_a, length * sizeof *sheet_a, met_turn());
    uint8_t *file = lend_pattern(&file_lender, room, met_turn());
    uint64_t given = sheet_write(level, lent_table, length, file, room);
    return met_answer(wanted, given, lent_unchanged(&table_lender) && lent_unchanged(&file_lender), "sheet A");
}

static void run_by_hand(void)
{
    report_check("sheet A's 32 bytes", gives_sheet_a(sheet_a, 32));
    report_check("sheet A from SE to NW", gives_sheet_a(sheet_a_backwards, 32));
    report_check("sheet A in more room than it needs", gives_sheet_a(sheet_a, 64));
    report_check("sheet A in a room of one byte less", refuses_sheet_a(2, 54, 31, packed(9, 32)));
    report_check("sheet A in no room", refuses_sheet_a(2, 54, 0, packed(9, 32)));
    report_check("sheet A at level 1 is too deep at 2, with no room", refuses_sheet_a(1, 54, 0, packed(4, 2)));
    report_check("the table's length comes before no room", refuses_sheet_a(2, 53, 0, packed(2, 0)));
    report_check("the level comes first", refuses_sheet_a(8, 53, 0, packed(1, 0)));
    report_check("no table and no file", sheet_write(7, NULL, 0, NULL, 0) == packed(2, 0));
    report_check("no file is no room", sheet_write(2, sheet_a, 54, NULL, 0) == packed(9, 32));
}

static void run_longest_file(void)
{
    static struct picture pic;
    struct dice d = dice_from(7);
    picture_draw(&pic, PICTURE_CHESSBOARD, 7, &d);
    table_of_picture(&table, &pic);
    report_check("the longest file needs 65540 bytes", bytes_needed(table.length) == SHEET_LONGEST_FILE);
    report_check("the longest file", compare(7, table.words, table.length, SHEET_LONGEST_FILE));
    report_check("the longest file in a byte less", compare(7, table.words, table.length, SHEET_LONGEST_FILE - 1));
    report_check("room for more than the longest file", compare(7, table.words, table.length, FILE_ROOM));
}

/* ---- the second implementation */

static const struct {
    enum sample sample;
    const char *name;
    uint32_t inputs;
} samples[] = {
    {SAMPLE_PREORDER, "sheets in preorder", 50000},
    {SAMPLE_RENUMBERED, "sheets in other numberings", 60000},
    {SAMPLE_DAMAGED, "one to three words damaged", 30000},
    {SAMPLE_ORPHAN, "a node that no fork has", 10000},
    {SAMPLE_DOUBLE_SON, "a son named twice", 10000},
    {SAMPLE_SON_BELOW_FATHER, "a son before its father", 10000},
    {SAMPLE_LOWER_LEVEL, "a lower level", 10000},
    {SAMPLE_DEEP_FORK, "a fork of one pixel", 10000},
    {SAMPLE_NEEDLESS_FORK, "a needless fork", 10000},
    {SAMPLE_RANDOM_WORDS, "random words", 5000},
    {SAMPLE_CUT_LENGTH, "cut tables", 5000},
    {SAMPLE_HOSTILE_LEVEL, "hostile levels", 5000},
};

static void run_samples(void)
{
    for (size_t i = 0; i < sizeof samples / sizeof *samples; i++) {
        struct dice d = dice_from(5000 + i);
        met_begin_group();
        for (uint32_t n = 0; n < samples[i].inputs; n++) {
            sample_make(&table, samples[i].sample, &d);
            compare_table(&d);
        }
        met_end_group(samples[i].name);
    }
}

/* Every room from none to a little more than is needed. */
static void compare_rooms(void)
{
    struct dice d = dice_from(51);
    for (uint32_t i = 0; i < 60; i++) {
        do
            sample_make(&table, SAMPLE_RENUMBERED, &d);
        while (table.length > 600);
        for (size_t room = 0; room <= bytes_needed(table.length) + 8; room++)
            compare(table.level, table.words, table.length, room);
    }
}

/* Tables of the two highest levels, of every kind and in every numbering. */
static void compare_large_sheets(void)
{
    static struct picture pic;
    struct dice d = dice_from(52);
    for (uint32_t i = 0; i < 200; i++) {
        picture_draw(&pic, (enum picture_kind)(i % PICTURE_KINDS), 6 + i / PICTURE_KINDS % 2, &d);
        table_of_picture(&table, &pic);
        if (i % 4 != 0)
            table_renumber(&table, (enum numbering)(i % NUMBERINGS), &d);
        compare_table(&d);
    }
}

int main(void)
{
    static const uint32_t codes[] = {0, 1, 2, 3, 4, 5, 9};
    table_lender = lender_open(sizeof table.words);
    file_lender = lender_open(FILE_ROOM);
    run_by_hand();
    run_longest_file();
    run_samples();
    met_group("every room for the file", compare_rooms);
    met_group("sheets of levels 6 and 7", compare_large_sheets);
    met_report(codes, sizeof codes / sizeof *codes, LEAST_INPUTS);
    return report_end();
}
