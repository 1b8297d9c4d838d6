#include "support/file.h"

#include <string.h>

#include "sheet.h"
#include "support/sample.h"

enum { LEVEL_PLACE = 2, COUNT_PLACE = 3 };

static const uint8_t node_mark[] = {0x51, 0x4e};

static void start(struct file *f, uint32_t level, uint32_t count)
{
    f->bytes[0] = 0x51;
    f->bytes[1] = 0x53;
    f->bytes[LEVEL_PLACE] = (uint8_t)level;
    f->length = FILE_HEADER_SIZE;
    file_set_count(f, count);
}

void file_set_count(struct file *f, uint32_t count)
{
    f->bytes[COUNT_PLACE] = (uint8_t)(count % 256);
    f->bytes[COUNT_PLACE + 1] = (uint8_t)(count / 256);
}

static void write_record(uint8_t *at, uint8_t type)
{
    memcpy(at, node_mark, sizeof node_mark);
    at[2] = type;
}

void file_append(struct file *f, uint8_t type)
{
    write_record(f->bytes + f->length, type);
    f->length += FILE_RECORD_SIZE;
}

void file_of_table(struct file *f, const struct table *preorder)
{
    start(f, preorder->level, table_count(preorder));
    for (uint32_t p = 0; p < table_count(preorder); p++)
        file_append(f, (uint8_t)preorder->words[p * SHEET_NODE_WORDS + SHEET_TYPE_WORD]);
}

uint32_t file_records(const struct file *f)
{
    return (uint32_t)((f->length - FILE_HEADER_SIZE) / FILE_RECORD_SIZE);
}

uint8_t *file_type(struct file *f, uint32_t record)
{
    return &f->bytes[FILE_HEADER_SIZE + record * FILE_RECORD_SIZE + 2];
}

void file_split(struct file *f, uint32_t record, const uint8_t *colours)
{
    uint8_t *after = file_type(f, record) + 1, *end = f->bytes + f->length;
    memmove(after + 4 * FILE_RECORD_SIZE, after, (size_t)(end - after));
    f->length += 4 * FILE_RECORD_SIZE;
    *file_type(f, record) = SHEET_GRAY;
    for (uint32_t son = 0; son < 4; son++)
        write_record(after + son * FILE_RECORD_SIZE, colours[son]);
    file_set_count(f, file_records(f));
}

static void make_sound(struct file *f, struct dice *d)
{
    static struct picture pic;
    static struct table table;
    sample_picture(&pic, d);
    table_of_picture(&table, &pic);
    file_of_table(f, &table);
}

static uint8_t telling_byte(uint8_t old, struct dice *d)
{
    static const uint8_t telling[] = {0, 1, 2, 3, 0x4e, 0x51, 0x53, 7, 8, 255};
    switch (dice_below(d, 4)) {
    case 0: return (uint8_t)(old + 1);
    case 1: return (uint8_t)(old - 1);
    case 2: return (uint8_t)dice_word(d);
    default: return telling[dice_below(d, sizeof telling)];
    }
}

static void change(struct file *f, uint32_t bytes, struct dice *d)
{
    for (; bytes > 0; bytes--) {
        uint8_t *at = &f->bytes[dice_below(d, (uint32_t)f->length)];
        *at = telling_byte(*at, d);
    }
}

static void lengthen(struct file *f, struct dice *d)
{
    if (dice_below(d, 2) == 0)
        file_append(f, (uint8_t)dice_below(d, 3));
    for (uint32_t bytes = 1 + dice_below(d, 4); bytes > 0; bytes--)
        f->bytes[f->length++] = telling_byte(0x51, d);
}

/* Another N: near the right one, its bytes changed about, or any. */
static void miscount(struct file *f, struct dice *d)
{
    uint32_t count = file_records(f);
    switch (dice_below(d, 5)) {
    case 0: file_set_count(f, count + 1); break;
    case 1: file_set_count(f, count - 1); break;
    case 2: file_set_count(f, count % 256 * 256 + count / 256); break;
    case 3: file_set_count(f, count ^ 256u << dice_below(d, 8)); break;
    default: file_set_count(f, dice_below(d, 65536)); break;
    }
}

/* Some leaf of the file. */
static uint32_t find_leaf(struct file *f, struct dice *d)
{
    uint32_t record = dice_below(d, file_records(f));
    while (*file_type(f, record) == SHEET_GRAY)
        record = (record + 1) % file_records(f);
    return record;
}

static void split_some_leaf(struct file *f, int needlessly, struct dice *d)
{
    uint32_t leaf = find_leaf(f, d);
    uint8_t colours[4];
    for (int son = 0; son < 4; son++)
        colours[son] = needlessly ? *file_type(f, leaf) : (uint8_t)dice_below(d, 2);
    file_split(f, leaf, colours);
    if (needlessly && f->bytes[LEVEL_PLACE] < SHEET_HIGHEST_LEVEL)
        f->bytes[LEVEL_PLACE]++;
}

static void make_random_records(struct file *f, struct dice *d)
{
    uint32_t records = 1 + dice_below(d, 60), forks = 1 + dice_below(d, 7);
    start(f, dice_below(d, SHEET_HIGHEST_LEVEL + 1), records);
    for (; records > 0; records--)
        file_append(f, dice_below(d, 8) < forks ? SHEET_GRAY : (uint8_t)dice_below(d, 2));
}

static void make_random_bytes(struct file *f, struct dice *d)
{
    start(f, dice_below(d, SHEET_HIGHEST_LEVEL + 1), dice_below(d, 65536));
    for (uint32_t bytes = dice_below(d, 60); bytes > 0; bytes--)
        f->bytes[f->length++] = telling_byte((uint8_t)dice_word(d), d);
    if (dice_below(d, 2) == 0)
        for (size_t i = 0; i < f->length; i++)
            f->bytes[i] = (uint8_t)dice_word(d);
}

void file_make(struct file *f, enum file_sample sample, struct dice *d)
{
    make_sound(f, d);
    switch (sample) {
    case FILE_CHANGED: change(f, 1 + dice_below(d, 3), d); break;
    case FILE_CUT: f->length = dice_below(d, (uint32_t)f->length); break;
    case FILE_LONGER: lengthen(f, d); break;
    case FILE_MISCOUNTED: miscount(f, d); break;
    case FILE_OTHER_LEVEL: f->bytes[LEVEL_PLACE] = (uint8_t)dice_below(d, SHEET_HIGHEST_LEVEL + 1); break;
    case FILE_BAD_LEVEL: f->bytes[LEVEL_PLACE] = (uint8_t)(8 + dice_below(d, 248)); break;
    case FILE_NEEDLESS_FORK: split_some_leaf(f, 1, d); break;
    case FILE_SPLIT: split_some_leaf(f, 0, d); break;
    case FILE_RANDOM_RECORDS: make_random_records(f, d); break;
    case FILE_RANDOM_BYTES: make_random_bytes(f, d); break;
    default: break;
    }
}
