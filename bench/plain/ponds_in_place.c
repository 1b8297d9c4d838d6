/*
 * Ponds for speed, in the lent words alone. A walk through the sheet, NW, NE, SW, SE,
 * gives each black block a label. It comes to a block after all that lies north and
 * west of it, so two lines, the labels last met in each column and in each row, say
 * what the block touches: it takes a label from there or begins a new one, and
 * labels that meet are linked. Pixels are taken by fours, in a pattern, and a table
 * says what a pattern does with those beside it.
 *
 * No block of a label comes before the one that began it, by rows, and labels that
 * begin in one row do so from left to right. So ponds count row by row, in the order
 * of their first labels. A second walk gives out the numbers and fills the register.
 *
 * A word of the numbers is two halves: the label of its node, and the link of the
 * label that has the word's place for a number. A fork begins two labels at most, so
 * there is a link for each.
 */
#include <string.h>

#include "plain/plain.h"
#include "plain/search.h"

enum { WHITE = 0, FORK = 2, MOST_SIDE = 128, MOST_PAIRS = MOST_SIDE / 2 };

/* With this bit a link is no label: this one leads its pond, and the rest is the row
 * where it begins, and later the pond's number. */
enum { LEADS = 0x8000 };

union word {
    uint32_t number;
    struct {
        uint16_t label, link;
    } half;
};

/* Columns and rows go by pairs. A pair's labels are in two halves, the first the
 * lower, 0 for white; which are black is said again by bits 4 and 5 for columns and
 * by bits 6 and 7 for rows, and known before the labels are. */
union line {
    uint32_t pair[MOST_PAIRS];
    int16_t label[MOST_SIDE]; /* the same, in one order or another */
};

struct water {
    const uint32_t *table;
    union word *words;
    uint32_t *reg;
    uint32_t next; /* the label that is free */
    union line north, west;
    uint8_t north_black[MOST_PAIRS], west_black[MOST_PAIRS];
};

/* Patterns of two by two pixels, a bit for each that is black, as quadrants. */
enum { NE_SW = 6, NW_SE = 9, ALL_FOUR = 15, DIAGONALS = 1 << NE_SW | 1 << NW_SE };

/* What is common is to stand in one piece, and what is rare out of its way. */
#define INLINE inline __attribute__((always_inline))
#define APART  __attribute__((noinline))

static inline uint32_t type_of(const struct water *w, uint32_t p)
{
    return plain_node(w->table, p)[5];
}

static inline uint32_t pattern_of(const struct water *w, const uint32_t *sons)
{
    return type_of(w, sons[0]) + 2 * (type_of(w, sons[1]) + 2 * (type_of(w, sons[2]) + 2 * type_of(w, sons[3])));
}

static inline int is_diagonal(uint32_t pattern)
{
    return DIAGONALS >> pattern & 1;
}

/* ---- meetings */

/* A pattern that hangs together meets the pixels beside it: those bits, the pattern's
 * and the lines', are the meeting's number. Of the four labels beside it, north and
 * then west, the masks have those that it touches. It takes the first of them, so
 * many bits up; but the last may begin in the lower row, and is taken only by a
 * pattern that has nothing in the upper. */
struct meeting {
    uint64_t touched;
    uint32_t south, east; /* masks of the labels that it leaves in the lines */
    uint16_t old, new;    /* masks: one is full                              */
    uint8_t from, is_low, south_black, east_black;
};

#define BIT(m, i)     ((m) >> (i) & 1)
#define TOUCHES_0(m)  (BIT(m, 0) & BIT(m, 4))
#define TOUCHES_1(m)  (BIT(m, 1) & BIT(m, 5))
#define TOUCHES_2(m)  (BIT(m, 0) & BIT(m, 6))
#define TOUCHES_3(m)  (BIT(m, 2) & BIT(m, 7))
#define IS_LOW(m)     (((m) & 3) == 0)
#define IS_NEW(m)     !(TOUCHES_0(m) | TOUCHES_1(m) | TOUCHES_2(m) | (TOUCHES_3(m) & IS_LOW(m)))
#define PAIR(a, b)    ((a) * UINT32_C(0xffff) | (b) * UINT32_C(0xffff0000))
#define MEETING(m)                                                                                              \
    {                                                                                                           \
        PAIR(TOUCHES_0(m), TOUCHES_1(m)) | (uint64_t)PAIR(TOUCHES_2(m), TOUCHES_3(m)) << 32,                    \
            PAIR(BIT(m, 2), BIT(m, 3)), PAIR(BIT(m, 1), BIT(m, 3)), IS_NEW(m) ? 0 : 0xffff,                     \
            IS_NEW(m) ? 0xffff : 0, TOUCHES_0(m) ? 0 : TOUCHES_1(m) ? 16 : TOUCHES_2(m) ? 32 : 48, IS_LOW(m),   \
            BIT(m, 2) << 4 | BIT(m, 3) << 5, BIT(m, 1) << 6 | BIT(m, 3) << 7                                    \
    }
#define MEETINGS_4(m)  MEETING(m), MEETING(m + 1), MEETING(m + 2), MEETING(m + 3)
#define MEETINGS_16(m) MEETINGS_4(m), MEETINGS_4(m + 4), MEETINGS_4(m + 8), MEETINGS_4(m + 12)
#define MEETINGS_64(m) MEETINGS_16(m), MEETINGS_16(m + 16), MEETINGS_16(m + 32), MEETINGS_16(m + 48)

static const struct meeting meetings[256] = {MEETINGS_64(0), MEETINGS_64(64), MEETINGS_64(128), MEETINGS_64(192)};

/* ---- labels */

/* The label that is free, made ready to begin in this row, and taken or not. */
static inline uint32_t free_label(struct water *w, uint32_t row, uint32_t is_taken)
{
    uint32_t label = w->next;
    w->words[label].half.link = (uint16_t)(LEADS | row);
    w->next = label + is_taken;
    return label;
}

static inline uint32_t leader(struct water *w, uint32_t label)
{
    uint32_t first = label, link;
    while (!((link = w->words[label].half.link) & LEADS))
        label = link;
    if (first != label)
        w->words[first].half.link = (uint16_t)label;
    return label;
}

/* Links two labels. Of their leaders the one that begins further up leads, or else
 * the one that was met before. */
static uint32_t join(struct water *w, uint32_t a, uint32_t b)
{
    a = leader(w, a);
    b = leader(w, b);
    uint32_t row_of_a = w->words[a].half.link, row_of_b = w->words[b].half.link;
    uint32_t first = (row_of_a << 16 | a) < (row_of_b << 16 | b) ? a : b, last = first ^ a ^ b;
    if (first != last)
        w->words[last].half.link = (uint16_t)first;
    return first;
}

/* The labels beside a pair of columns and a pair of rows. */
static inline uint64_t labels_beside(const struct water *w, uint32_t column, uint32_t row)
{
    return w->north.pair[column] | (uint64_t)w->west.pair[row] << 32;
}

static uint32_t join_touched(struct water *w, uint32_t label, uint64_t labels, uint64_t touched)
{
    for (; touched != 0; labels >>= 16, touched >>= 16)
        if ((touched & 1) && (labels & 0xffff) != label)
            label = join(w, label, labels & 0xffff);
    return label;
}

static inline uint32_t in_both(uint32_t label)
{
    return label << 16 | label;
}

/* ---- the walk that labels: two by two pixels */

typedef void label_walk(struct water *w, uint32_t p, uint32_t column, uint32_t row);

/* Two pixels that do not touch. The lower one's label is kept at its own node. */
static APART void label_diagonal(struct water *w, uint32_t pattern, uint32_t p, uint32_t column, uint32_t row)
{
    const uint32_t *sons = plain_node(w->table, p) + 1;
    uint32_t north = w->north.pair[column], west = w->west.pair[row], upper, lower;
    if (pattern == NW_SE) {
        uint32_t from_north = north & 0xffff, from_west = west & 0xffff;
        upper = free_label(w, 2 * row, (from_north | from_west) == 0);
        upper = from_north != 0 ? from_north : from_west != 0 ? from_west : upper;
        if (from_north != 0 && from_west != 0)
            upper = join(w, upper, from_west);
        lower = free_label(w, 2 * row + 1, 1);
        w->words[sons[3]].half.label = (uint16_t)lower;
        w->north.pair[column] = w->west.pair[row] = lower << 16;
        w->north_black[column] = 1 << 5;
        w->west_black[row] = 1 << 7;
    } else {
        upper = free_label(w, 2 * row, north >> 16 == 0);
        upper = north >> 16 != 0 ? north >> 16 : upper;
        lower = free_label(w, 2 * row + 1, west >> 16 == 0);
        lower = west >> 16 != 0 ? west >> 16 : lower;
        w->words[sons[2]].half.label = (uint16_t)lower;
        w->north.pair[column] = lower;
        w->west.pair[row] = upper;
        w->north_black[column] = 1 << 4;
        w->west_black[row] = 1 << 6;
    }
    w->words[p].half.label = (uint16_t)upper;
}

static INLINE void settle(struct water *w, uint32_t label, const struct meeting *m, uint32_t p, uint32_t column,
                          uint32_t row)
{
    w->north.pair[column] = in_both(label) & m->south;
    w->west.pair[row] = in_both(label) & m->east;
    w->north_black[column] = m->south_black;
    w->west_black[row] = m->east_black;
    w->words[p].half.label = (uint16_t)label;
}

static APART void join_and_settle(struct water *w, uint32_t label, const struct meeting *m, uint32_t p, uint32_t column,
                                  uint32_t row)
{
    settle(w, join_touched(w, label, labels_beside(w, column, row), m->touched), m, p, column, row);
}

static INLINE void label_pattern(struct water *w, uint32_t pattern, uint32_t p, uint32_t column, uint32_t row)
{
    const struct meeting *m = &meetings[pattern | w->north_black[column] | w->west_black[row]];
    uint64_t labels = labels_beside(w, column, row);
    uint32_t label = free_label(w, 2 * row + m->is_low, m->new & 1);
    label = (label & m->new) | (labels >> m->from & m->old);
    if ((labels ^ label * UINT64_C(0x0001000100010001)) & m->touched)
        join_and_settle(w, label, m, p, column, row);
    else
        settle(w, label, m, p, column, row);
}

static void label_four(struct water *w, uint32_t p, uint32_t column, uint32_t row)
{
    uint32_t pattern = pattern_of(w, plain_node(w->table, p) + 1);
    if (is_diagonal(pattern))
        label_diagonal(w, pattern, p, column, row);
    else
        label_pattern(w, pattern, p, column, row);
}

static APART void label_black_four(struct water *w, uint32_t p, uint32_t column, uint32_t row)
{
    label_pattern(w, ALL_FOUR, p, column, row);
}

/* ---- the walk that labels: larger blocks */

static INLINE void fill_lines(struct water *w, uint32_t label, uint32_t is_black, uint32_t column, uint32_t row,
                              uint32_t pairs)
{
    uint32_t *north = w->north.pair + column, *west = w->west.pair + row;
    for (uint32_t i = 0; i < pairs; i++)
        north[i] = in_both(label);
    for (uint32_t i = 0; i < pairs; i++)
        west[i] = in_both(label);
    memset(w->north_black + column, (int)(is_black * (3 << 4)), pairs);
    memset(w->west_black + row, (int)(is_black * (3 << 6)), pairs);
}

static APART uint32_t join_sides(struct water *w, uint32_t label, uint32_t column, uint32_t row, uint32_t pairs)
{
    for (uint32_t i = 0; i < pairs; i++) {
        uint32_t meeting = ALL_FOUR | w->north_black[column + i] | w->west_black[row + i];
        label = join_touched(w, label, labels_beside(w, column + i, row + i), meetings[meeting].touched);
    }
    return label;
}

/* The greatest of the labels of so many pairs, or 0. */
static INLINE uint32_t most_of(const union line *l, uint32_t from, uint32_t pairs)
{
    const int16_t *label = l->label + 2 * from;
    int16_t most = 0;
    for (uint32_t i = 0; i < 2 * pairs; i++)
        most = label[i] > most ? label[i] : most;
    return (uint32_t)most;
}

/* The least of them, less 1, where 0 is none; or 32767. */
static INLINE uint32_t least_of(const union line *l, uint32_t from, uint32_t pairs)
{
    const int16_t *label = l->label + 2 * from;
    int16_t least = INT16_MAX;
    for (uint32_t i = 0; i < 2 * pairs; i++) {
        int16_t less_one = (int16_t)((label[i] - 1) & INT16_MAX);
        least = less_one < least ? less_one : least;
    }
    return (uint32_t)least;
}

static INLINE void label_black(struct water *w, uint32_t p, uint32_t column, uint32_t row, uint32_t pairs)
{
    uint32_t on_north = most_of(&w->north, column, pairs), on_west = most_of(&w->west, row, pairs);
    uint32_t least_north = least_of(&w->north, column, pairs), least_west = least_of(&w->west, row, pairs);
    uint32_t most = on_north > on_west ? on_north : on_west;
    uint32_t least = 1 + (least_north < least_west ? least_north : least_west);
    uint32_t label = on_north != 0 ? on_north : w->west.pair[row] & 0xffff;
    uint32_t is_new = label == 0, next = free_label(w, 2 * row, is_new);
    label |= next & -is_new;
    if (most != 0 && (most != label || least != label))
        label = join_sides(w, label, column, row, pairs);
    fill_lines(w, label, 1, column, row, pairs);
    w->words[p].half.label = (uint16_t)label;
}

static INLINE void label_son(struct water *w, uint32_t p, uint32_t column, uint32_t row, uint32_t pairs,
                             label_walk *label_fork)
{
    uint32_t type = type_of(w, p);
    if (type == FORK) {
        label_fork(w, p, column, row);
    } else if (type == WHITE) {
        fill_lines(w, 0, 0, column, row, pairs);
        w->words[p].half.label = 0;
    } else if (pairs == 1) {
        label_black_four(w, p, column, row);
    } else {
        label_black(w, p, column, row, pairs);
    }
}

/* Labels what is below fork p, whose sons have so many pairs on a side. */
static INLINE void label_sons(struct water *w, uint32_t p, uint32_t column, uint32_t row, uint32_t pairs,
                              label_walk *label_fork)
{
    const uint32_t *sons = plain_node(w->table, p) + 1;
    w->words[p].half.label = 0;
    label_son(w, sons[0], column, row, pairs, label_fork);
    label_son(w, sons[1], column + pairs, row, pairs, label_fork);
    label_son(w, sons[2], column, row + pairs, pairs, label_fork);
    label_son(w, sons[3], column + pairs, row + pairs, pairs, label_fork);
}

/* Each level has a walk of its own, with lengths that are constants. */
#define LABEL_LEVEL(level, label_fork)                                                          \
    static void label_level_##level(struct water *w, uint32_t p, uint32_t column, uint32_t row) \
    {                                                                                           \
        label_sons(w, p, column, row, 1 << (level - 2), label_fork);                            \
    }
LABEL_LEVEL(2, label_four)
LABEL_LEVEL(3, label_level_2)
LABEL_LEVEL(4, label_level_3)
LABEL_LEVEL(5, label_level_4)
LABEL_LEVEL(6, label_level_5)
LABEL_LEVEL(7, label_level_6)

static label_walk *const label_fork_of[8] = {NULL,          label_four,    label_level_2, label_level_3,
                                             label_level_4, label_level_5, label_level_6, label_level_7};

/* ---- the ponds' numbers */

/* Until the end the first column is less than 0 by as much: so all but the pixels of
 * an entry, and of a block's own box, are what is most. */
typedef int32_t box __attribute__((vector_size(16)));

static inline void begin_entry(uint32_t *entry, uint32_t row)
{
    entry[0] = entry[2] = entry[4] = 0;
    entry[1] = row;
    entry[3] = (uint32_t)-MOST_SIDE;
}

/* Numbers the leaders, and gives back how many there are. */
static uint32_t number_leaders(struct water *w)
{
    uint16_t before[1 + MOST_SIDE] = {0}; /* the ponds above a row, from 1 on; 0 takes labels that do not lead */
    uint32_t ponds = 0, last = 0;
    for (uint32_t label = 1; label < w->next; label++) {
        uint32_t link = w->words[label].half.link, at = link & LEADS ? 1 + (link & ~LEADS) : 0;
        before[at]++;
        last = at > last ? at : last;
    }
    for (uint32_t at = 1; at <= last; at++) {
        uint32_t begin = before[at];
        before[at] = (uint16_t)ponds;
        ponds += begin;
    }
    for (uint32_t label = 1; label < w->next; label++) {
        uint32_t link = w->words[label].half.link;
        if (link & LEADS) {
            uint32_t row = link & ~LEADS, number = ++before[1 + row];
            begin_entry(w->reg + 5 * (number - 1), row);
            w->words[label].half.link = (uint16_t)(LEADS | number);
        }
    }
    return ponds;
}

/* Gives every label what its leader has. */
static void number_labels(struct water *w)
{
    for (uint32_t label = 1; label < w->next; label++) {
        uint32_t link = w->words[label].half.link;
        while (!(link & LEADS))
            link = w->words[link].half.link;
        w->words[label].half.link = (uint16_t)link;
    }
}

/* ---- the walk that numbers */

typedef void number_walk(struct water *w, uint32_t p, box corner);

static INLINE void enter(struct water *w, uint32_t number, uint32_t pixels, box b)
{
    uint32_t *entry = w->reg + 5 * (number - UINT32_C(1));
    box old;
    memcpy(&old, entry + 1, sizeof old);
    box is_more = b > old;
    b = (b & is_more) | (old & ~is_more);
    entry[0] += pixels;
    memcpy(entry + 1, &b, sizeof b);
}

static inline uint32_t number_of(const struct water *w, uint32_t p)
{
    return w->words[w->words[p].half.label].half.link & ~LEADS;
}

static APART void number_diagonal(struct water *w, uint32_t pattern, uint32_t p, box corner)
{
    static const box pixel[4] = {{0, 0, 0, 0}, {0, 0, -1, 1}, {0, 1, 0, 0}, {0, 1, -1, 1}};
    const uint32_t *sons = plain_node(w->table, p) + 1;
    uint32_t first = pattern == NE_SW, last = 3 - first;
    uint32_t upper = number_of(w, p), lower = number_of(w, sons[last]);
    enter(w, upper, 1, corner + pixel[first]);
    enter(w, lower, 1, corner + pixel[last]);
    w->words[p].half.label = 0;
    w->words[sons[first]].half.label = (uint16_t)upper;
    w->words[sons[1 - first]].half.label = 0;
    w->words[sons[last]].half.label = (uint16_t)lower;
    w->words[sons[5 - last]].half.label = 0;
}

static INLINE void number_four(struct water *w, uint32_t p, box corner)
{
    static const struct {
        box extent;
        uint32_t pixels;
    } shape[16] = {{{0, 0, 0, 0}, 0},  {{0, 0, 0, 0}, 1}, {{0, 0, -1, 1}, 1}, {{0, 0, 0, 1}, 2},
                   {{0, 1, 0, 0}, 1},  {{0, 1, 0, 0}, 2}, {{0, 1, 0, 1}, 2},  {{0, 1, 0, 1}, 3},
                   {{0, 1, -1, 1}, 1}, {{0, 1, 0, 1}, 2}, {{0, 1, -1, 1}, 2}, {{0, 1, 0, 1}, 3},
                   {{0, 1, 0, 1}, 2},  {{0, 1, 0, 1}, 3}, {{0, 1, 0, 1}, 3},  {{0, 1, 0, 1}, 4}};
    const uint32_t *sons = plain_node(w->table, p) + 1;
    uint32_t pattern = pattern_of(w, sons);
    if (is_diagonal(pattern)) {
        number_diagonal(w, pattern, p, corner);
        return;
    }
    uint32_t number = number_of(w, p);
    w->words[p].half.label = 0;
    for (uint32_t i = 0; i < 4; i++)
        w->words[sons[i]].half.label = (uint16_t)(number & -(pattern >> i & 1));
    enter(w, number, shape[pattern].pixels, corner + shape[pattern].extent);
}

static INLINE void number_son(struct water *w, uint32_t p, box corner, int32_t side, number_walk *number_fork)
{
    uint32_t type = type_of(w, p);
    if (type == FORK) {
        number_fork(w, p, corner);
    } else if (type != WHITE) {
        uint32_t number = number_of(w, p);
        w->words[p].half.label = (uint16_t)number;
        enter(w, number, (uint32_t)(side * side), corner + (box){0, side - 1, 0, side - 1});
    }
}

static INLINE void number_sons(struct water *w, uint32_t p, box corner, int32_t side, number_walk *number_fork)
{
    const uint32_t *sons = plain_node(w->table, p) + 1;
    number_son(w, sons[0], corner, side, number_fork);
    number_son(w, sons[1], corner + (box){0, 0, -side, side}, side, number_fork);
    number_son(w, sons[2], corner + (box){0, side, 0, 0}, side, number_fork);
    number_son(w, sons[3], corner + (box){0, side, -side, side}, side, number_fork);
}

#define NUMBER_LEVEL(level, number_fork)                                      \
    static void number_level_##level(struct water *w, uint32_t p, box corner) \
    {                                                                         \
        number_sons(w, p, corner, 1 << (level - 1), number_fork);             \
    }
NUMBER_LEVEL(2, number_four)
NUMBER_LEVEL(3, number_level_2)
NUMBER_LEVEL(4, number_level_3)
NUMBER_LEVEL(5, number_level_4)
NUMBER_LEVEL(6, number_level_5)
NUMBER_LEVEL(7, number_level_6)

static number_walk *const number_fork_of[8] = {NULL,           number_four,    number_level_2, number_level_3,
                                               number_level_4, number_level_5, number_level_6, number_level_7};

/* ---- the call */

/* Has the register room for as many black leaves as there can be? A fork has three
 * at most, and a sheet three for each fork of two by two pixels. */
static int has_room_for_most(uint32_t n, size_t table_len, size_t reg_len)
{
    size_t forks = table_len / 24, most_forks = (size_t)1 << 2 * (n - 1);
    return reg_len >= 15 * (forks < most_forks ? forks : most_forks);
}

static uint64_t count_black(const uint32_t *table, size_t table_len)
{
    uint64_t black = 0;
    for (size_t at = 5; at < table_len; at += 6)
        black += table[at] & 1;
    return black;
}

/* The ponds of a sheet of one leaf. */
static uint64_t one_leaf(uint32_t side, const uint32_t *table, uint32_t *numbers, uint32_t *reg, size_t reg_len)
{
    uint32_t black = table[5];
    if (reg_len < 5 * black)
        return 9 + 256 * 5;
    numbers[0] = black;
    if (black) {
        reg[0] = side * side;
        reg[1] = reg[3] = 0;
        reg[2] = reg[4] = side - 1;
    }
    return 256 * black;
}

static uint32_t fill_both(struct water *w, uint32_t n, size_t numbers_len)
{
    uint32_t pairs = UINT32_C(1) << (n - 1);
    w->next = 1;
    memset(w->north.pair, 0, sizeof *w->north.pair * pairs);
    memset(w->west.pair, 0, sizeof *w->west.pair * pairs);
    memset(w->north_black, 0, pairs);
    memset(w->west_black, 0, pairs);
    label_fork_of[n](w, 0, 0, 0);
    uint32_t ponds = number_leaders(w);
    number_labels(w);
    number_fork_of[n](w, 0, (box){0, 0, 0, 0});
    for (size_t p = 0; p < numbers_len; p++)
        w->words[p].number = w->words[p].half.label;
    for (uint32_t k = 0; k < ponds; k++)
        w->reg[5 * k + 3] = -w->reg[5 * k + 3];
    return ponds;
}

uint64_t plain_ponds_in_place(uint32_t n, const uint32_t *table, size_t table_len, uint32_t *numbers,
                              size_t numbers_len, uint32_t *reg, size_t reg_len)
{
    uint64_t check = plain_check(n, table, table_len);
    if (check % 256 == 1 || check % 256 == 2)
        return check;
    if (numbers_len != table_len / 6)
        return 2 + 256 * 1;
    if (check % 256 != 0)
        return check;
    if (table[5] != FORK)
        return one_leaf(UINT32_C(1) << n, table, numbers, reg, reg_len);
    if (!has_room_for_most(n, table_len, reg_len)) {
        uint64_t need = 5 * count_black(table, table_len);
        if (reg_len < need)
            return 9 + 256 * need;
    }
    struct water w;
    w.table = table;
    w.words = (union word *)numbers;
    w.reg = reg;
    return 256 * (uint64_t)fill_both(&w, n, numbers_len);
}
