/*
 * A fuzzer for the calls that take a table or a raster: the input is a table, a
 * level and further numbers, and each of the calls is asked about it and held
 * against the second implementation.
 *
 * An input is a head of fixed size and then the table's words. Node numbers and
 * types are small, so most words are one byte; bytes from 251 on stand for None
 * and announce longer words. The head's numbers count within what the table has,
 * so that most questions are about nodes that are there, and by one byte a table
 * is cut to whole nodes unless the byte says not to.
 *
 * A table with any word changed is nearly always unsound, and changing bytes does
 * not lead from one sound table to another. A third of the inputs therefore are
 * changed as tables: a leaf is split, the nodes get other numbers, one fault is
 * put in, or another table is drawn; no tables to start from are needed. The head
 * is short beside a table, so a change of bytes seldom meets it: another third
 * keep their table, and another question is asked about it.
 */
#include <string.h>

#include "held.h"
#include "second/second.h"
#include "sheet.h"
#include "support/dice.h"
#include "support/faults.h"
#include "support/file.h"
#include "support/sample.h"
#include "support/table.h"

enum { HEAD = 12, LONGEST_WORD = 5, MOST_OFF = 32 };

/* Beyond these the second implementation, which tries everything, takes too long. */
enum { HIGHEST_BUILT = 4, MOST_BUILT = 1 << 2 * HIGHEST_BUILT, MOST_PAIRS = 1 << 20 };

/* Where the head's numbers stand. */
enum { LEVEL, NODE, NODE_HIGH, DIRECTION, SIDE, CORNER, SECOND_LENGTH, THIRD_LENGTH, LENDING, GROUND, WHOLE = 11 };

/* The bytes that are not a number themselves. */
enum { TWO_BYTES = 251, BELOW_NONE, FOUR_BYTES, HALF_WAY, NONE_BYTE };

static struct table table;

/* ---- the table's bytes */

static uint32_t number_from(const uint8_t *bytes, size_t count)
{
    uint32_t number = 0;
    for (size_t i = count; i-- > 0;)
        number = number * 256 + bytes[i];
    return number;
}

/* How many bytes follow one that announces a word. */
static size_t more_bytes(uint8_t byte)
{
    return byte == TWO_BYTES ? 2 : byte == FOUR_BYTES ? 4 : byte == BELOW_NONE || byte == HALF_WAY ? 1 : 0;
}

static uint32_t word_from(const uint8_t *bytes)
{
    uint32_t number = number_from(bytes + 1, more_bytes(bytes[0]));
    switch (bytes[0]) {
    case TWO_BYTES: return number;
    case BELOW_NONE: return SHEET_NONE - 1 - number;
    case FOUR_BYTES: return number;
    case HALF_WAY: return UINT32_C(0x80000000) + number;
    case NONE_BYTE: return SHEET_NONE;
    default: return bytes[0];
    }
}

/* A level from 0 to 7 mostly, or one above. */
static uint32_t level_from(uint8_t byte)
{
    return byte < 192 ? byte % 8u : byte < 240 ? byte - 184u : UINT32_C(1) << (byte - 224);
}

static void table_from(const uint8_t *bytes, size_t size)
{
    table.level = level_from(bytes[LEVEL]);
    table.length = 0;
    for (size_t i = HEAD; i < size && i + more_bytes(bytes[i]) < size; i += 1 + more_bytes(bytes[i]))
        table.words[table.length++] = word_from(bytes + i);
    if (bytes[WHOLE] < 224)
        table.length -= table.length % SHEET_NODE_WORDS;
}

static size_t write_word(uint8_t *bytes, uint32_t word)
{
    uint8_t longer = word == SHEET_NONE ? NONE_BYTE : word < 65536 ? TWO_BYTES : FOUR_BYTES;
    bytes[0] = word < TWO_BYTES ? (uint8_t)word : longer;
    for (size_t i = 0; i < more_bytes(bytes[0]); i++)
        bytes[1 + i] = (uint8_t)(word >> 8 * i);
    return 1 + more_bytes(bytes[0]);
}

static uint8_t level_byte(uint32_t level)
{
    return (uint8_t)(level < 8 ? level : level < 56 ? level + 184 : 240 + level % 16);
}

/* Writes the table at hand after the head; the size, or 0 where there are too few
 * bytes. */
static size_t write_table(uint8_t *bytes, size_t most)
{
    size_t size = HEAD;
    for (size_t i = 0; i < table.length; i++) {
        if (size + LONGEST_WORD > most)
            return 0;
        size += write_word(bytes + size, table.words[i]);
    }
    bytes[LEVEL] = level_byte(table.level);
    bytes[WHOLE] = table.length % SHEET_NODE_WORDS == 0 ? 0 : 255;
    return size;
}

/* ---- questions */

/* A number up to a little above the bound, or a power of two. */
static uint32_t number_near(uint8_t byte, uint32_t bound)
{
    return byte < 240 ? byte % (bound + 2) : UINT32_C(1) << (byte - 224);
}

static uint32_t node_from(const uint8_t *head)
{
    uint32_t number = number_from(head + NODE, 2);
    if (number < 0x8000)
        return number % (table_count(&table) + 2);
    return number % 2 ? SHEET_NONE - number / 2 % 256 : number << 16;
}

/* The length that is right or, from byte 192 on, up to 32 more or less. */
static size_t length_near(size_t right, uint8_t byte)
{
    size_t length = right + (byte < 192 ? MOST_OFF : byte - 192u);
    return length < MOST_OFF ? 0 : length - MOST_OFF;
}

static uint32_t count_black(void)
{
    uint32_t black = 0;
    for (uint32_t p = 0; p < table_count(&table); p++)
        black += table_node(&table, p)[SHEET_TYPE_WORD] == SHEET_BLACK;
    return black;
}

/* What all questions of an input have alike. */
static struct question question_from(const uint8_t *head)
{
    struct question q;
    struct dice d = dice_from(head[LENDING]), of_ground = dice_from(number_from(head + GROUND, 2));
    memset(&q, 0, sizeof q);
    q.level = table.level;
    q.node = node_from(head);
    q.contents = table.words;
    q.lengths[0] = table.length;
    q.ground = ground_draw(&of_ground);
    for (int i = 0; i < MOST_SLICES; i++)
        q.at[i] = (enum lend_at)dice_below(&d, LEND_PLACES);
    q.filling = (enum filling)dice_below(&d, FILLINGS);
    q.null_where_empty = dice_below(&d, 2) == 0;
    return q;
}

static void ask(struct question *q, enum call call, size_t second_length, size_t third_length)
{
    q->call = call;
    q->lengths[1] = second_length;
    q->lengths[2] = third_length;
    held(q);
}

static void ask_near(struct question *q, const uint8_t *head)
{
    q->numbers[0] = number_near(head[DIRECTION], 8);
    ask(q, CALL_NEIGHBOUR, 0, 0);
    q->numbers[0] = number_near(head[CORNER], 4);
    ask(q, CALL_DIAGONAL_LEAF, 0, 0);
    q->numbers[0] = number_near(head[SIDE], 4);
    q->numbers[1] = number_near(head[CORNER], 4);
    ask(q, CALL_CORNER_LEAF, 0, 0);
}

static void ask_about_table(const uint8_t *head)
{
    struct question q = question_from(head);
    size_t count = table_count(&table), black = count_black();
    size_t pixels = (size_t)1 << 2 * (table.level % (SHEET_HIGHEST_LEVEL + 1));
    uint8_t second = head[SECOND_LENGTH], third = head[THIRD_LENGTH];
    ask(&q, CALL_CHECK, 0, 0);
    ask(&q, CALL_DECODE, length_near(pixels, second), 0);
    ask_near(&q, head);
    if (black * pixels <= MOST_PAIRS)
        ask(&q, CALL_DISTANCE, length_near(count, second), 0);
    ask(&q, CALL_PONDS, length_near(count, second), length_near(SHEET_POND_WORDS * black, third));
    ask(&q, CALL_WRITE, length_near(FILE_HEADER_SIZE + FILE_RECORD_SIZE * count, second), 0);
    ask(&q, CALL_CENTRE, length_near(2, second), 0);
}

/* The table's bytes as pixels: from 192 on they are bad ones. */
static void ask_about_raster(const uint8_t *bytes, size_t size)
{
    static uint8_t raster[MOST_BUILT + MOST_OFF];
    struct question q = question_from(bytes);
    uint32_t level = table.level % (HIGHEST_BUILT + 1);
    size_t pixels = (size_t)1 << 2 * level;
    for (size_t i = 0; i < sizeof raster; i++)
        raster[i] = HEAD + i >= size ? 0 : bytes[HEAD + i] < 192 ? bytes[HEAD + i] / 32 % 2 : bytes[HEAD + i];
    if (q.level <= SHEET_HIGHEST_LEVEL)
        q.level = level;
    q.contents = raster;
    q.lengths[0] = length_near(pixels, bytes[WHOLE]);
    uint64_t no_room = second_build(level, raster, pixels, NULL, 0);
    size_t needed = sheet_code(no_room) == SHEET_NO_ROOM ? (size_t)sheet_value(no_room) : SHEET_NODE_WORDS;
    ask(&q, CALL_BUILD, length_near(needed, bytes[SECOND_LENGTH]), 0);
}

/* What is missing of the head is 0. */
int LLVMFuzzerTestOneInput(const uint8_t *bytes, size_t size)
{
    static uint8_t whole_head[HEAD];
    if (size > TABLE_ROOM)
        return 0;
    if (size < HEAD) {
        memset(whole_head, 0, HEAD);
        memcpy(whole_head, bytes, size);
        bytes = whole_head;
        size = HEAD;
    }
    table_from(bytes, size);
    ask_about_table(bytes);
    ask_about_raster(bytes, size);
    return 0;
}

/* ---- changes */

/* Splits a leaf into four that are not all alike; the table stays sound. */
static void split_leaf(struct dice *d)
{
    uint32_t leaf = dice_below(d, table_count(&table)), odd = dice_below(d, 4), depth = 0;
    while (table_node(&table, leaf)[SHEET_TYPE_WORD] == SHEET_GRAY)
        leaf = (leaf + 1) % table_count(&table);
    for (uint32_t at = leaf; at != 0; at = table_node(&table, at)[SHEET_FATHER_WORD])
        depth++;
    if (depth == SHEET_HIGHEST_LEVEL)
        return;
    for (uint32_t quadrant = 0; quadrant < 4; quadrant++) {
        uint32_t colour = quadrant == odd ? SHEET_BLACK : quadrant == (odd + 1) % 4 ? SHEET_WHITE : dice_below(d, 2);
        uint32_t son = table_append(&table, leaf, colour);
        table_node(&table, leaf)[SHEET_SON_WORD + quadrant] = son;
    }
    table_node(&table, leaf)[SHEET_TYPE_WORD] = SHEET_GRAY;
    table.level = table.level > depth ? table.level : depth + 1;
}

static void change_sound(struct dice *d)
{
    switch (dice_below(d, 16)) {
    case 0: fault_damage(&table, 1, d); break;
    case 1: fault_orphan(&table, d); break;
    case 2: fault_double_son(&table, d); break;
    case 3: fault_son_below_father(&table, d); break;
    case 4: fault_needless_fork(&table, d); break;
    case 5: fault_deep_fork(&table, d); break;
    case 6: table.level = dice_below(d, SHEET_HIGHEST_LEVEL + 1); break;
    case 7:
    case 8:
    case 9: table_renumber(&table, (enum numbering)dice_below(d, NUMBERINGS), d); break;
    default: split_leaf(d); break;
    }
}

static void change_table(struct dice *d)
{
    int rule;
    if (table.length == 0 || dice_below(d, 16) == 0)
        sample_make(&table, (enum sample)dice_below(d, SAMPLES), d);
    else if (second_check(table.level, table.words, table.length, &rule) % 256 == 0)
        change_sound(d);
    else
        fault_damage(&table, 1, d);
}

/* Draws anew all that the head has beside the table's own numbers; most nodes are there. */
static void change_question(uint8_t *head, struct dice *d)
{
    for (size_t i = NODE; i < WHOLE; i++)
        head[i] = (uint8_t)dice_below(d, i == NODE_HIGH ? 144 : 256);
}

size_t LLVMFuzzerCustomMutator(uint8_t *bytes, size_t size, size_t most, unsigned seed)
{
    struct dice d = dice_from(seed);
    uint32_t way = dice_below(&d, 3);
    if (most < HEAD || way == 0)
        return LLVMFuzzerMutate(bytes, size, most);
    if (size < HEAD) {
        memset(bytes + size, 0, HEAD - size);
        size = HEAD;
    }
    if (way == 1) {
        change_question(bytes, &d);
        return size;
    }
    table_from(bytes, size);
    change_table(&d);
    size_t changed = write_table(bytes, most);
    return changed > 0 ? changed : LLVMFuzzerMutate(bytes, size, most);
}
