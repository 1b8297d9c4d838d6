/*
 * A fuzzer for sheet_read: the input is the file. Every file is read into rooms
 * of several lengths, at every place between guards, and the answer and the table
 * are held against the second implementation. Where the file is accepted, its
 * table must be accepted, writing it must give the same bytes back, and building
 * its raster the same table.
 *
 * A file with a byte more or less is nearly always refused at once, so that
 * libFuzzer's own changes hardly reach past the first records. Half of the inputs
 * therefore are changed in whole records, have their N set right, or are drawn
 * anew; no files to start from are needed.
 */
#include <string.h>

#include "held.h"
#include "second/second.h"
#include "sheet.h"
#include "support/dice.h"
#include "support/file.h"
#include "support/table.h"

/* Trying every block of a higher level takes the second implementation too long. */
enum { HIGHEST_BUILT = 4, MOST_PIXELS = 1 << 2 * SHEET_HIGHEST_LEVEL };

static uint32_t table[TABLE_ROOM];

static struct question question(enum call call, uint32_t level, const void *contents, size_t length, size_t room)
{
    struct question q;
    memset(&q, 0, sizeof q);
    q.call = call;
    q.level = level;
    q.contents = contents;
    q.lengths[0] = length;
    q.lengths[1] = room;
    return q;
}

/* In this room for a table, at every place between guards. */
static uint64_t read_everywhere(const uint8_t *bytes, size_t size, size_t room)
{
    struct question q = question(CALL_READ, 0, bytes, size, room);
    struct outcome o = {0, 0, 0};
    for (int at = 0; at < LEND_PLACES; at++) {
        q.at[0] = q.at[1] = (enum lend_at)at;
        q.filling = (enum filling)(at % FILLINGS);
        q.null_where_empty = at % 2;
        o = held(&q);
    }
    return o.given;
}

/* Writing the table gives the file, building its raster gives the table. */
static void there_and_back(const uint8_t *bytes, size_t size, uint32_t level, size_t length)
{
    static uint8_t file[FILE_ROOM], raster[MOST_PIXELS];
    static uint32_t again[TABLE_ROOM];
    size_t pixels = (size_t)1 << 2 * level;
    must_hold(sheet_write(level, table, length, file, size) == 256 * (uint64_t)size && memcmp(file, bytes, size) == 0,
              "writing what was read gives the file");
    must_hold(sheet_decode(level, table, length, raster, pixels) == SHEET_OK, "what was read has a raster");
    must_hold(sheet_build(level, raster, pixels, again, length) == 256 * (uint64_t)(length / SHEET_NODE_WORDS) &&
                  memcmp(again, table, length * sizeof *table) == 0,
              "building the raster gives the table");
    if (level <= HIGHEST_BUILT) {
        struct question q = question(CALL_BUILD, level, raster, pixels, length);
        held(&q);
    }
}

static void try_accepted(const uint8_t *bytes, size_t size, uint64_t answer)
{
    uint32_t level = sheet_level(answer);
    size_t length = (size_t)sheet_count(answer) * SHEET_NODE_WORDS;
    must_hold(sheet_read(bytes, size, table, length) == answer, "a file is read again as before");
    struct question check = question(CALL_CHECK, level, table, length, 0);
    struct question write = question(CALL_WRITE, level, table, length, size);
    struct question decode = question(CALL_DECODE, level, table, length, (size_t)1 << 2 * level);
    must_hold(sheet_value(held(&check).given) == sheet_count(answer), "what was read is accepted");
    held(&write);
    held(&decode);
    there_and_back(bytes, size, level, length);
}

int LLVMFuzzerTestOneInput(const uint8_t *bytes, size_t size)
{
    if (size > SHEET_LONGEST_FILE + FILE_HEADER_SIZE)
        return 0;
    uint64_t answer = read_everywhere(bytes, size, 0);
    if (sheet_code(answer) == SHEET_NO_ROOM) {
        size_t needed = (size_t)sheet_value(answer);
        read_everywhere(bytes, size, needed - 1);
        read_everywhere(bytes, size, needed + 7);
        try_accepted(bytes, size, read_everywhere(bytes, size, needed));
    } else {
        read_everywhere(bytes, size, 6);
    }
    return 0;
}

/* ---- changes */

static struct file file;

/* Splits some record into a fork with leaves of any colours, leaf or not. */
static void split_record(struct dice *d)
{
    uint8_t colours[4];
    if (file_records(&file) == 0)
        return;
    for (int son = 0; son < 4; son++)
        colours[son] = (uint8_t)dice_below(d, 2);
    file_split(&file, dice_below(d, file_records(&file)), colours);
}

static void change_type(struct dice *d)
{
    if (file_records(&file) > 0)
        *file_type(&file, dice_below(d, file_records(&file))) = (uint8_t)dice_below(d, 3);
}

static void change_records(struct dice *d)
{
    if (file.length < FILE_HEADER_SIZE)
        file_make(&file, FILE_SOUND, d);
    for (uint32_t changes = dice_below(d, 3); changes > 0; changes--)
        if (dice_below(d, 2) == 0)
            split_record(d);
        else
            change_type(d);
    file_set_count(&file, file_records(&file));
}

size_t LLVMFuzzerCustomMutator(uint8_t *bytes, size_t size, size_t most, unsigned seed)
{
    struct dice d = dice_from(seed);
    uint32_t which = dice_below(&d, 32);
    if (which < 16)
        return LLVMFuzzerMutate(bytes, size, most);
    file.length = size;
    memcpy(file.bytes, bytes, size);
    if (which == 31)
        file_make(&file, (enum file_sample)dice_below(&d, FILE_SAMPLES), &d);
    else
        change_records(&d);
    if (file.length > most)
        return LLVMFuzzerMutate(bytes, size, most);
    memcpy(bytes, file.bytes, file.length);
    return file.length;
}
