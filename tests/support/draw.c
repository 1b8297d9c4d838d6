#include "support/draw.h"

#include <string.h>

#include "second/second.h"
#include "sheet.h"
#include "support/file.h"
#include "support/sample.h"
#include "support/table.h"

enum { RASTER_ROOM = 4 * 65536 };

static struct table table;
static struct picture pic;
static struct file file;
static uint8_t raster[RASTER_ROOM];

/* A length that has to be just so: this one or, at times, none, one next to it,
 * a half, a double or any small one. */
static size_t just_so(size_t right, struct dice *d)
{
    switch (dice_below(d, 24)) {
    case 0: return 0;
    case 1: return right == 0 ? 0 : right - 1;
    case 2: return right + 1;
    case 3: return right / 2;
    case 4: return right * 2;
    case 5: return dice_below(d, 400);
    default: return right;
    }
}

/* ---- tables */

static void make_largest(struct dice *d)
{
    picture_draw(&pic, PICTURE_CHESSBOARD, SHEET_HIGHEST_LEVEL, d);
    table_in_turn(&table, &pic, dice_word(d), d);
}

/* Gives the table another length. Words that were not there are those from the
 * start again. */
static void set_length(size_t length)
{
    size_t old = table.length;
    for (size_t i = old; i < length; i++)
        table.words[i] = table.words[i % old];
    table.length = length;
}

/* Longer than the longest table, by a word, by a node or by many. */
static void make_too_long(struct dice *d)
{
    static const size_t lengths[] = {
        131071, 131072, 131075, 131076, 131082, 131094, 196608, TABLE_ROOM - 1, TABLE_ROOM,
    };
    if (dice_below(d, 2) == 0)
        make_largest(d);
    else
        sample_make(&table, SAMPLE_RENUMBERED, d);
    set_length(lengths[dice_below(d, sizeof lengths / sizeof *lengths)]);
}

/* A sound table with a word to five too few or too many, or with a node too few
 * or too many. */
static void make_off_length(struct dice *d)
{
    size_t by = 1 + dice_below(d, 6);
    sample_make(&table, SAMPLE_RENUMBERED, d);
    set_length(dice_below(d, 2) == 0 ? table.length - by : table.length + by);
}

/* A sheet of a level from 5 to 7. */
static void make_large(struct dice *d)
{
    uint32_t level = 5 + dice_below(d, 3);
    picture_draw(&pic, (enum picture_kind)dice_below(d, PICTURE_KINDS), level, d);
    table_in_turn(&table, &pic, dice_word(d), d);
}

static void make_table(struct dice *d)
{
    uint32_t which = dice_below(d, 1000);
    if (which == 0)
        make_largest(d);
    else if (which < 4)
        make_too_long(d);
    else if (which < 40)
        make_off_length(d);
    else if (which >= 50 && which < 80)
        make_large(d);
    else if (which < 540)
        sample_make(&table, dice_below(d, 2) ? SAMPLE_PREORDER : SAMPLE_RENUMBERED, d);
    else
        sample_make(&table, (enum sample)dice_below(d, SAMPLES), d);
    if (which >= 40 && which < 50)
        table.length = 0;
}

static uint32_t count_black(void)
{
    uint32_t black = 0;
    for (uint32_t p = 0; p < table_count(&table); p++)
        black += table_node(&table, p)[SHEET_TYPE_WORD] == SHEET_BLACK;
    return black;
}

/* Trying every white pixel for every black leaf takes long where there are many
 * of both: such tables are mostly drawn again. The largest are too rare for that. */
static void make_table_for_distance(struct dice *d)
{
    do
        make_table(d);
    while (table.length >= 3000 && table.length <= SHEET_LONGEST_TABLE && count_black() > 300 &&
           dice_below(d, table.length == SHEET_LONGEST_TABLE ? 8 : 64) != 0);
}

/* ---- rasters and files */

static size_t pixels_of(uint32_t level)
{
    return (size_t)1 << (2 * level);
}

static void spoil_pixels(struct dice *d)
{
    static const uint8_t bad[] = {2, 3, 4, 127, 128, 129, 254, 255};
    for (uint32_t pixels = 1 + dice_below(d, 3); pixels > 0; pixels--)
        raster[dice_below(d, (uint32_t)pixels_of(pic.level))] = bad[dice_below(d, sizeof bad)];
}

/* Draws a raster; its length, in pixels, may not be the level's. */
static size_t make_raster(struct dice *d)
{
    uint32_t which = dice_below(d, 1000);
    if (which == 0)
        picture_draw(&pic, PICTURE_CHESSBOARD, SHEET_HIGHEST_LEVEL, d);
    else
        sample_picture(&pic, d);
    size_t right = pixels_of(pic.level), length = right;
    memcpy(raster, pic.pixels, right);
    if (which >= 850)
        spoil_pixels(d);
    if (which >= 1 && which < 200)
        length = just_so(right, d);
    if (which >= 1 && which < 4)
        length = pixels_of(SHEET_HIGHEST_LEVEL) + 1 + dice_below(d, RASTER_ROOM / 2);
    for (size_t i = right; i < length; i++)
        raster[i] = raster[i % right];
    return length;
}

static void make_file(struct dice *d)
{
    uint32_t which = dice_below(d, 1000);
    if (which == 0) {
        picture_draw(&pic, PICTURE_CHESSBOARD, SHEET_HIGHEST_LEVEL, d);
        table_of_picture(&table, &pic);
        file_of_table(&file, &table);
    } else {
        file_make(&file, which < 300 ? FILE_SOUND : (enum file_sample)dice_below(d, FILE_SAMPLES), d);
    }
    if (which >= 290 && which < 300)
        file.length = 0;
    if (which >= 1 && which < 4)
        for (uint32_t more = SHEET_LONGEST_FILE / FILE_RECORD_SIZE + dice_below(d, 9999); more > 0; more--)
            file_append(&file, (uint8_t)dice_below(d, 3));
}

/* The words that as many nodes need as the file has room for. */
static size_t words_needed(void)
{
    return file.length < FILE_HEADER_SIZE ? 0 : (size_t)file_records(&file) * SHEET_NODE_WORDS;
}

/* ---- questions */

/* The level of the picture at hand or, at times, another one. */
static uint32_t some_level(uint32_t right, struct dice *d)
{
    switch (dice_below(d, 32)) {
    case 0: return sample_hostile_level(d);
    case 1: return dice_below(d, SHEET_HIGHEST_LEVEL + 1);
    default: return right;
    }
}

static void give_raster(struct question *q, struct dice *d)
{
    q->lengths[0] = make_raster(d);
    q->contents = raster;
    q->level = some_level(pic.level, d);
    table_of_picture(&table, &pic);
    q->lengths[1] = dice_below(d, 256) == 0 ? TABLE_ROOM : sample_room(table.length, d);
}

static void give_file(struct question *q, struct dice *d)
{
    make_file(d);
    q->contents = file.bytes;
    q->lengths[0] = file.length;
    size_t room = sample_room(words_needed(), d);
    q->lengths[1] = room > TABLE_ROOM || dice_below(d, 256) == 0 ? TABLE_ROOM : room;
}

/* Gives the table, and no other slice yet. */
static void give_table(struct question *q, struct dice *d)
{
    if (q->call == CALL_DISTANCE)
        make_table_for_distance(d);
    else
        make_table(d);
    q->contents = table.words;
    q->lengths[0] = table.length;
    q->level = table.level;
}

/* A ground; for a sound table at times one on which the node's centre is at 0. */
static struct ground some_ground(const struct question *q, struct dice *d)
{
    int rule;
    if (dice_below(d, 8) == 0 && second_check(q->level, table.words, table.length, &rule) % 256 == 0 &&
        q->node < table_count(&table))
        return ground_draw_cancelling(q->level, table.words, q->node, d);
    return ground_draw(d);
}

static void give_more(struct question *q, struct dice *d)
{
    size_t count = table_count(&table);
    switch (q->call) {
    case CALL_DECODE: q->lengths[1] = just_so(pixels_of(q->level % 9), d); break;
    case CALL_NEIGHBOUR: q->numbers[0] = sample_number(8, d); break;
    case CALL_CORNER_LEAF:
        q->numbers[0] = sample_number(4, d);
        q->numbers[1] = sample_number(4, d);
        break;
    case CALL_DIAGONAL_LEAF: q->numbers[0] = sample_number(4, d); break;
    case CALL_DISTANCE: q->lengths[1] = just_so(count, d); break;
    case CALL_PONDS:
        q->lengths[1] = just_so(count, d);
        q->lengths[2] = sample_room((size_t)count_black() * SHEET_POND_WORDS, d);
        break;
    case CALL_WRITE: q->lengths[1] = sample_room(FILE_HEADER_SIZE + count * FILE_RECORD_SIZE, d); break;
    case CALL_CENTRE:
        q->ground = some_ground(q, d);
        q->lengths[1] = sample_room(2, d);
        break;
    default: break;
    }
}

void draw_question(struct question *q, enum call call, struct dice *d)
{
    memset(q, 0, sizeof *q);
    q->call = call;
    if (call == CALL_BUILD) {
        give_raster(q, d);
    } else if (call == CALL_READ) {
        give_file(q, d);
    } else {
        give_table(q, d);
        q->node = sample_node(&table, d);
        give_more(q, d);
    }
    q->filling = dice_below(d, 4) ? FILL_PATTERN : (enum filling)dice_below(d, FILLINGS);
    for (int i = 0; i < MOST_SLICES; i++)
        q->at[i] = (enum lend_at)dice_below(d, LEND_PLACES);
    q->null_where_empty = dice_below(d, 2) == 0;
}
