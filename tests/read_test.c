/*
 * sheet_read against the second implementation, and against answers worked out
 * by hand. The file is lent between guards and must not be written; the table is
 * lent full of a pattern, and every word of it must be as wanted afterwards, also
 * beyond the nodes and after a refusal.
 */
#include <inttypes.h>
#include <string.h>

#include "second/second.h"
#include "sheet.h"
#include "support/file.h"
#include "support/lender.h"
#include "support/met.h"
#include "support/report.h"
#include "support/sample.h"
#include "support/words.h"

enum { LEAST_INPUTS = 400000, COUNT_FIELD = 3 };

static struct lender file_lender, table_lender;
static struct file file;

/* How often code 14 was wanted for the header's N, and how often for bytes left
 * over. */
static uint32_t met_miscounts, met_left_over;

static void count_code_14(uint64_t wanted)
{
    if (wanted % 256 != SHEET_BAD_COUNT)
        return;
    if (wanted / 256 == COUNT_FIELD)
        met_miscounts++;
    else
        met_left_over++;
}

/* Lends the file and room for a table, and holds the answer and the table
 * against those of the second implementation. */
static int compare(const uint8_t *bytes, size_t length, size_t table_len)
{
    static uint32_t wanted_table[TABLE_ROOM];
    uint8_t *lent_file = lend_to_read(&file_lender, bytes, length, met_turn());
    uint32_t *lent_table = lend_pattern(&table_lender, table_len * sizeof *wanted_table, met_turn());
    memcpy(wanted_table, lent_table, table_len * sizeof *wanted_table);
    uint64_t wanted = second_read(bytes, length, wanted_table, table_len);
    uint64_t given = sheet_read(lent_file, length, lent_table, table_len);
    count_code_14(wanted);
    return met_answer(wanted, given, lent_unchanged(&file_lender) && lent_holds(&table_lender, wanted_table),
                      "%zu bytes, room for %zu words", length, table_len);
}

/* The words that as many nodes need as the file has room for. */
static size_t words_needed(const struct file *f)
{
    return f->length < FILE_HEADER_SIZE ? 0 : (size_t)file_records(f) * SHEET_NODE_WORDS;
}

static void compare_file(struct dice *d)
{
    compare(file.bytes, file.length, sample_room(words_needed(&file), d));
}

/* ---- answers worked out by hand */

#define HEADER(n, count) 0x51, 0x53, n, count, 0
#define NODE(type) 0x51, 0x4e, type
#define SHEET_A_NODES NODE(2), NODE(1), NODE(2), NODE(0), NODE(0), NODE(0), NODE(1), NODE(0), NODE(0)

struct vector {
    const char *name;
    size_t length;
    uint8_t bytes[64];
    size_t room;
    uint32_t code, value;
    size_t nodes;
    uint32_t words[9 * 6];
};

static const struct vector vectors[] = {
    {"sheet A's 32 bytes", 32, {HEADER(2, 9), SHEET_A_NODES}, 54, 0, 8 * 9 + 2, 9, {SHEET_A}},
    {"sheet A at level 7, in more room than it needs", 32, {HEADER(7, 9), SHEET_A_NODES}, 61, 0, 8 * 9 + 7, 9,
     {SHEET_A}},
    {"sheet A in a room of one word less", 32, {HEADER(2, 9), SHEET_A_NODES}, 53, 9, 54, 0, {0}},
    {"sheet A in no room", 32, {HEADER(2, 9), SHEET_A_NODES}, 0, 9, 54, 0, {0}},
    {"sheet A with a byte left over", 33, {HEADER(2, 9), SHEET_A_NODES, 0x51}, 54, 14, 32, 0, {0}},
    {"bytes left over come before no room", 33, {HEADER(2, 9), SHEET_A_NODES}, 0, 14, 32, 0, {0}},
    {"sheet A with another N", 32, {HEADER(2, 10), SHEET_A_NODES}, 54, 14, 3, 0, {0}},
    {"sheet A with another N's high byte", 32, {0x51, 0x53, 2, 9, 1, SHEET_A_NODES}, 54, 14, 3, 0, {0}},
    {"another N comes before bytes left over", 33, {HEADER(2, 8), SHEET_A_NODES}, 54, 14, 3, 0, {0}},
    {"a missing byte comes before another N", 31, {HEADER(2, 8), SHEET_A_NODES}, 54, 13, 31, 0, {0}},
    {"sheet A at level 1 is too deep at its third type", 32, {HEADER(1, 9), SHEET_A_NODES}, 54, 4, 13, 0, {0}},
    {"level 8 is a bad level", 32, {HEADER(8, 9), SHEET_A_NODES}, 54, 1, 2, 0, {0}},
    {"level 8 is a bad level as soon as it is read", 3, {0x51, 0x53, 8}, 0, 1, 2, 0, {0}},
    {"an empty file", 0, {0}, 54, 13, 0, 0, {0}},
    {"a file of one byte", 1, {0x51}, 54, 13, 1, 0, {0}},
    {"a file of one wrong byte", 1, {0x50}, 54, 12, 0, 0, {0}},
    {"a second byte that is wrong", 2, {0x51, 0x4e}, 54, 12, 1, 0, {0}},
    {"a header and no more", 5, {HEADER(2, 9)}, 54, 13, 5, 0, {0}},
    {"a node with the header's mark", 8, {HEADER(0, 1), 0x51, 0x53, 0}, 6, 12, 6, 0, {0}},
    {"a type of 3", 8, {HEADER(0, 1), NODE(3)}, 6, 12, 7, 0, {0}},
    {"a type of 255", 8, {HEADER(0, 1), NODE(255)}, 6, 12, 7, 0, {0}},
    {"one black pixel", 8, {HEADER(0, 1), NODE(1)}, 6, 0, 8, 1, {LEAF(NO, B)}},
    {"a fork of one pixel", 8, {HEADER(0, 1), NODE(2)}, 6, 4, 7, 0, {0}},
    {"four white sons", 20, {HEADER(1, 5), NODE(2), NODE(0), NODE(0), NODE(0), NODE(0)}, 30, 5, 19, 0, {0}},
    {"four black sons", 20, {HEADER(1, 5), NODE(2), NODE(1), NODE(1), NODE(1), NODE(1)}, 30, 5, 19, 0, {0}},
    {"three like sons and no more", 20, {HEADER(2, 9), NODE(2), NODE(2), NODE(1), NODE(1), NODE(1)}, 54, 13, 20, 0, {0}},
    {"the fourth like son of a first son", 23, {HEADER(2, 9), NODE(2), NODE(2), NODE(1), NODE(1), NODE(1), NODE(1)}, 54,
     5, 22, 0, {0}},
};

static int gives(const struct vector *v)
{
    uint32_t wanted_table[64];
    uint8_t *bytes = lend_to_read(&file_lender, v->bytes, v->length, met_turn());
    uint32_t *table = lend_pattern(&table_lender, v->room * sizeof *table, met_turn());
    memcpy(wanted_table, table, v->room * sizeof *table);
    memcpy(wanted_table, v->words, v->nodes * SHEET_NODE_WORDS * sizeof *table);
    uint64_t given = sheet_read(bytes, v->length, table, v->room);
    return met_answer(packed(v->code, v->value), given,
                      lent_unchanged(&file_lender) && lent_holds(&table_lender, wanted_table), "%s", v->name);
}

static void run_vectors(void)
{
    for (size_t i = 0; i < sizeof vectors / sizeof *vectors; i++)
        report_check(vectors[i].name, gives(&vectors[i]));
}

static void run_empty_slices(void)
{
    static const uint8_t pixel[] = {HEADER(0, 1), NODE(1)};
    report_check("no file and no table", sheet_read(NULL, 0, NULL, 0) == packed(13, 0));
    report_check("no table is no room", sheet_read(pixel, sizeof pixel, NULL, 0) == packed(9, 6));
}

/* The file in which every block above a pixel is a fork. */
static void make_longest_file(void)
{
    static struct picture pic;
    static struct table table;
    struct dice d = dice_from(7);
    picture_draw(&pic, PICTURE_CHESSBOARD, 7, &d);
    table_of_picture(&table, &pic);
    file_of_table(&file, &table);
}

static void run_longest_file(void)
{
    make_longest_file();
    report_check("the longest file has 65540 bytes", file.length == SHEET_LONGEST_FILE);
    report_check("the longest file", compare(file.bytes, file.length, SHEET_LONGEST_TABLE));
    report_check("the longest file in a word less", compare(file.bytes, file.length, SHEET_LONGEST_TABLE - 1));
    report_check("room for more than the longest table", compare(file.bytes, file.length, TABLE_ROOM));
    report_check("the longest file cut by a byte", compare(file.bytes, file.length - 1, SHEET_LONGEST_TABLE));
    report_check("the longest file and a byte", compare(file.bytes, file.length + 1, SHEET_LONGEST_TABLE));
}

/* ---- the second implementation */

static const uint8_t sheet_a[] = {HEADER(2, 9), SHEET_A_NODES};

/* Sheet A with every one of its bytes changed to every other. */
static void compare_one_byte_changed(void)
{
    uint8_t bytes[sizeof sheet_a];
    memcpy(bytes, sheet_a, sizeof bytes);
    for (size_t place = 0; place < sizeof bytes; place++) {
        for (uint32_t byte = 0; byte < 256; byte++) {
            bytes[place] = (uint8_t)byte;
            compare(bytes, sizeof bytes, 54);
        }
        bytes[place] = sheet_a[place];
    }
}

/* Sheet A with every N. */
static void compare_every_count(void)
{
    uint8_t bytes[sizeof sheet_a];
    memcpy(bytes, sheet_a, sizeof bytes);
    for (uint32_t count = 0; count < 65536; count++) {
        bytes[COUNT_FIELD] = (uint8_t)(count % 256);
        bytes[COUNT_FIELD + 1] = (uint8_t)(count / 256);
        compare(bytes, sizeof bytes, 54);
    }
}

/* A sound file of some hundred bytes at most. */
static void make_short_file(struct dice *d)
{
    do
        file_make(&file, FILE_SOUND, d);
    while (file.length > 300);
}

/* Files with every level byte. */
static void compare_every_level(void)
{
    struct dice d = dice_from(41);
    for (uint32_t i = 0; i < 40; i++) {
        make_short_file(&d);
        for (uint32_t level = 0; level < 256; level++) {
            file.bytes[2] = (uint8_t)level;
            compare_file(&d);
        }
    }
}

/* Files cut at every place; no byte beyond the cut may be looked at. */
static void compare_every_cut(void)
{
    struct dice d = dice_from(42);
    for (uint32_t i = 0; i < 800; i++) {
        make_short_file(&d);
        for (size_t length = 0; length <= file.length; length++)
            compare(file.bytes, length, 12);
    }
}

/* Files with each byte changed, one at a time. */
static void compare_every_place_changed(void)
{
    static const uint8_t bytes[] = {0, 1, 2, 3, 0x4e, 0x51, 0x53, 255};
    struct dice d = dice_from(43);
    for (uint32_t i = 0; i < 400; i++) {
        make_short_file(&d);
        for (size_t place = 0; place < file.length; place++) {
            uint8_t old = file.bytes[place];
            for (size_t b = 0; b < sizeof bytes; b++) {
                file.bytes[place] = bytes[b];
                compare_file(&d);
            }
            file.bytes[place] = old;
        }
    }
}

/* Files with each leaf split, one at a time: into four of its own colour, which
 * is a needless fork, or of any, and too deep where the leaf was one pixel. */
static void compare_every_leaf_split(void)
{
    static struct file whole;
    struct dice d = dice_from(44);
    for (uint32_t i = 0; i < 800; i++) {
        make_short_file(&d);
        whole = file;
        for (uint32_t record = 0; record < file_records(&whole); record++) {
            uint8_t type = *file_type(&whole, record), any[4];
            uint8_t like[] = {type, type, type, type};
            if (type == SHEET_GRAY)
                continue;
            for (int son = 0; son < 4; son++)
                any[son] = (uint8_t)dice_below(&d, 2);
            file_split(&file, record, i % 2 ? like : any);
            compare_file(&d);
            memcpy(file.bytes, whole.bytes, whole.length);
            file.length = whole.length;
        }
    }
}

/* Every room from none to a little more than is needed. */
static void compare_rooms(void)
{
    struct dice d = dice_from(45);
    for (uint32_t i = 0; i < 60; i++) {
        make_short_file(&d);
        for (size_t room = 0; room <= words_needed(&file) + 8; room++)
            compare(file.bytes, file.length, room);
    }
}

/* Header of this level, and then records of one type without end. */
static void make_endless(uint8_t level, uint8_t type)
{
    static const uint8_t header[] = {HEADER(0, 1)};
    memcpy(file.bytes, header, sizeof header);
    file.bytes[2] = level;
    file.length = sizeof header;
    while (file.length + FILE_RECORD_SIZE <= FILE_ROOM)
        file_append(&file, type);
}

static void compare_long_files(void)
{
    for (uint8_t level = 0; level <= 8; level++)
        for (uint8_t type = 0; type <= 3; type++) {
            make_endless(level, type);
            compare(file.bytes, file.length, 600);
        }
    make_longest_file();
    while (file.length + FILE_RECORD_SIZE <= FILE_ROOM)
        file_append(&file, (uint8_t)(file.length % 3));
    compare(file.bytes, file.length, SHEET_LONGEST_TABLE);
    memset(file.bytes, 0x51, FILE_ROOM);
    compare(file.bytes, FILE_ROOM, 6);
}

static const struct {
    enum file_sample sample;
    const char *name;
    uint32_t inputs;
} samples[] = {
    {FILE_SOUND, "sound files", 20000},
    {FILE_CHANGED, "one to three bytes changed", 40000},
    {FILE_CUT, "cut files", 10000},
    {FILE_LONGER, "bytes left over", 10000},
    {FILE_MISCOUNTED, "another N", 10000},
    {FILE_OTHER_LEVEL, "another level", 10000},
    {FILE_BAD_LEVEL, "a level above 7", 5000},
    {FILE_NEEDLESS_FORK, "a leaf split needlessly", 10000},
    {FILE_SPLIT, "a leaf split", 10000},
    {FILE_RANDOM_RECORDS, "random records", 40000},
    {FILE_RANDOM_BYTES, "random bytes", 40000},
};

static void run_samples(void)
{
    for (size_t i = 0; i < sizeof samples / sizeof *samples; i++) {
        struct dice d = dice_from(4000 + i);
        met_begin_group();
        for (uint32_t n = 0; n < samples[i].inputs; n++) {
            file_make(&file, samples[i].sample, &d);
            compare_file(&d);
        }
        met_end_group(samples[i].name);
    }
}

int main(void)
{
    static const uint32_t codes[] = {0, 1, 4, 5, 9, 12, 13, 14};
    file_lender = lender_open(sizeof file.bytes);
    table_lender = lender_open(TABLE_ROOM * sizeof(uint32_t));
    run_vectors();
    run_empty_slices();
    run_longest_file();
    met_group("sheet A with any byte changed", compare_one_byte_changed);
    met_group("sheet A with every N", compare_every_count);
    met_group("every level byte", compare_every_level);
    met_group("a cut at every place", compare_every_cut);
    met_group("a byte changed at every place", compare_every_place_changed);
    met_group("every leaf split", compare_every_leaf_split);
    met_group("every room for the table", compare_rooms);
    met_group("long files", compare_long_files);
    run_samples();
    met_report(codes, sizeof codes / sizeof *codes, LEAST_INPUTS);
    met_often("code 14 at place", COUNT_FIELD, met_miscounts);
    met_often("bytes left over, code", SHEET_BAD_COUNT, met_left_over);
    return report_end();
}
