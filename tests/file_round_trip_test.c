/*
 * sheet_read and sheet_write, each taking back what the other did: every table
 * of a picture is written to one file, and that file is read as the preorder
 * table of the picture.
 */
#include <inttypes.h>
#include <string.h>

#include "sheet.h"
#include "support/file.h"
#include "support/met.h"
#include "support/report.h"
#include "support/sample.h"
#include "support/table.h"

enum { SHEETS = 30000 };

static struct picture pic;
static struct table preorder, renumbered;
static struct file file;

/* A table of the picture is written and read. */
static void compare_table(const struct table *t)
{
    static uint8_t bytes[SHEET_LONGEST_FILE];
    static uint32_t words[SHEET_LONGEST_TABLE];
    uint64_t written = sheet_write(t->level, t->words, t->length, bytes, sizeof bytes);
    uint64_t read = sheet_read(bytes, (size_t)sheet_value(written), words, SHEET_LONGEST_TABLE);
    met_answer(packed(SHEET_OK, file.length), written, memcmp(bytes, file.bytes, file.length) == 0,
               "level %" PRIu32 ", written", t->level);
    met_answer(packed(SHEET_OK, 8 * (uint64_t)table_count(t) + t->level), read,
               memcmp(words, preorder.words, preorder.length * sizeof *words) == 0, "level %" PRIu32 ", read", t->level);
}

/* The picture's file is read and written. */
static void compare_file(void)
{
    static uint8_t bytes[SHEET_LONGEST_FILE];
    static uint32_t words[SHEET_LONGEST_TABLE];
    uint64_t read = sheet_read(file.bytes, file.length, words, preorder.length);
    uint32_t level = sheet_level(read);
    size_t length = (size_t)sheet_count(read) * SHEET_NODE_WORDS;
    uint64_t written = sheet_write(level, words, length, bytes, file.length);
    met_answer(packed(SHEET_OK, file.length), written, memcmp(bytes, file.bytes, file.length) == 0,
               "level %" PRIu32 ", read and written", pic.level);
}

static void compare_sheets(void)
{
    struct dice d = dice_from(61);
    for (uint32_t i = 0; i < SHEETS; i++) {
        sample_picture(&pic, &d);
        table_of_picture(&preorder, &pic);
        table_of_picture(&renumbered, &pic);
        table_renumber(&renumbered, (enum numbering)(i % NUMBERINGS), &d);
        file_of_table(&file, &preorder);
        compare_table(&preorder);
        compare_table(&renumbered);
        compare_file();
    }
}

int main(void)
{
    met_group("table to file and back, file to table and back", compare_sheets);
    return report_end();
}
