#include "input.h"

#include <string.h>

#include "support/file.h"
#include "support/table.h"

static struct picture pic;
static struct table table;
static struct file file;

int call_searches(enum call call)
{
    return call == CALL_NEIGHBOUR || call == CALL_CORNER_LEAF || call == CALL_DIAGONAL_LEAF || call == CALL_CENTRE;
}

static size_t pixels(void)
{
    return (size_t)1 << (2 * pic.level);
}

/* Puts a sheet into the next words that are free, and says where. */
static const void *keep(struct input *in, size_t *used, const void *contents, size_t size)
{
    uint32_t *to = in->contents + *used;
    memcpy(to, contents, size);
    *used += (size + 3) / 4;
    return to;
}

/* The question about the sheet at hand, with room for just what is written. */
static struct question question_of(struct input *in, size_t *used, enum call call)
{
    struct question q = {.call = call, .level = pic.level, .ground = {1000.25, -2000.5, 0.3}};
    size_t count = table_count(&table);
    if (call == CALL_BUILD) {
        q.contents = keep(in, used, pic.pixels, pixels());
        q.lengths[0] = pixels();
    } else if (call == CALL_READ) {
        file_of_table(&file, &table);
        q.contents = keep(in, used, file.bytes, file.length);
        q.lengths[0] = file.length;
    } else {
        q.contents = keep(in, used, table.words, table.length * sizeof *table.words);
        q.lengths[0] = table.length;
    }
    switch (call) {
    case CALL_BUILD:
    case CALL_READ: q.lengths[1] = table.length; break;
    case CALL_DECODE: q.lengths[1] = pixels(); break;
    case CALL_DISTANCE:
    case CALL_PONDS: q.lengths[1] = count; break;
    case CALL_WRITE: q.lengths[1] = FILE_HEADER_SIZE + count * FILE_RECORD_SIZE; break;
    case CALL_CENTRE: q.lengths[1] = 2; break;
    default: break;
    }
    q.lengths[2] = SHEET_LONGEST_REGISTER;
    return q;
}

/* A node, and where to look from it. */
static void draw_node(struct question *q, struct dice *d)
{
    static const uint8_t corners[4][2] = {{0, 1}, {1, 3}, {2, 3}, {0, 2}};
    q->node = dice_below(d, (uint32_t)(q->lengths[0] / SHEET_NODE_WORDS));
    q->numbers[0] = dice_below(d, q->call == CALL_NEIGHBOUR ? 8 : 4);
    q->numbers[1] = corners[q->numbers[0] % 4][dice_below(d, 2)];
}

/* The lone pixel of a sparse sheet lies anywhere, so that no call finds it by looking
 * at a corner. */
static void draw_picture(enum picture_kind kind, uint32_t level, struct dice *d)
{
    uint32_t side = UINT32_C(1) << level;
    if (kind == PICTURE_LONE_PIXEL) {
        uint32_t x = dice_below(d, side);
        picture_draw_lone_pixel(&pic, level, x, dice_below(d, side));
    } else {
        picture_draw(&pic, kind, level, d);
    }
}

/* The sheets are the same in either numbering. */
static void draw_sheet(enum picture_kind kind, uint32_t level, int at_random, struct dice *d)
{
    do {
        draw_picture(kind, level, d);
        table_of_picture(&table, &pic);
    } while (table.length == SHEET_NODE_WORDS);
    if (at_random) {
        struct dice of_numbers = *d;
        table_renumber(&table, NUMBER_RANDOM, &of_numbers);
    }
}

/* Each sheet is asked about once, and again until there are questions enough. */
static void draw_nodes(struct input *in, struct dice *d)
{
    for (size_t sheets = in->questions; in->questions < LEAST_QUESTIONS; in->questions++) {
        in->question[in->questions] = in->question[in->questions - sheets];
        in->nodes += in->question[in->questions].lengths[0] / SHEET_NODE_WORDS;
    }
    for (size_t i = 0; i < in->questions; i++)
        draw_node(&in->question[i], d);
}

void input_draw(struct input *in, enum call call, enum picture_kind kind, uint32_t level, int at_random)
{
    struct dice d = dice_from(70 + level);
    size_t used = 0;
    in->questions = in->nodes = in->pixels = 0;
    while (in->nodes < LEAST_NODES && in->pixels < ENOUGH_PIXELS) {
        draw_sheet(kind, level, at_random, &d);
        in->question[in->questions++] = question_of(in, &used, call);
        in->nodes += table_count(&table);
        in->pixels += pixels();
    }
    if (call_searches(call))
        draw_nodes(in, &d);
}
