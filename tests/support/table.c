#include "support/table.h"

#include <string.h>

#include "sheet.h"

uint32_t *table_node(struct table *t, uint32_t p)
{
    return &t->words[(size_t)p * SHEET_NODE_WORDS];
}

uint32_t table_count(const struct table *t)
{
    return (uint32_t)(t->length / SHEET_NODE_WORDS);
}

uint32_t table_append(struct table *t, uint32_t father, uint32_t type)
{
    uint32_t p = table_count(t);
    uint32_t *node = table_node(t, p);
    node[SHEET_FATHER_WORD] = father;
    for (int quadrant = 0; quadrant < 4; quadrant++)
        node[SHEET_SON_WORD + quadrant] = SHEET_NONE;
    node[SHEET_TYPE_WORD] = type;
    t->length += SHEET_NODE_WORDS;
    return p;
}

static int has_one_colour(const struct picture *pic, uint32_t left, uint32_t top, uint32_t side)
{
    const uint8_t *pixels = pic->pixels;
    uint32_t width = UINT32_C(1) << pic->level;
    for (uint32_t y = top; y < top + side; y++)
        for (uint32_t x = left; x < left + side; x++)
            if (pixels[y * width + x] != pixels[top * width + left])
                return 0;
    return 1;
}

static uint32_t append_block(struct table *t, const struct picture *pic, uint32_t father,
                             uint32_t left, uint32_t top, uint32_t side)
{
    uint32_t half = side / 2;
    if (has_one_colour(pic, left, top, side))
        return table_append(t, father, pic->pixels[(top << pic->level) + left]);
    uint32_t p = table_append(t, father, SHEET_GRAY);
    for (uint32_t quadrant = 0; quadrant < 4; quadrant++) {
        uint32_t east = quadrant % 2, south = quadrant / 2;
        uint32_t son = append_block(t, pic, p, left + east * half, top + south * half, half);
        table_node(t, p)[SHEET_SON_WORD + quadrant] = son;
    }
    return p;
}

void table_of_picture(struct table *t, const struct picture *pic)
{
    t->level = pic->level;
    t->length = 0;
    append_block(t, pic, SHEET_NONE, 0, 0, UINT32_C(1) << pic->level);
}

/* Which of the nodes that wait for a number comes next. */
static uint32_t next_place(enum numbering numbering, uint32_t first, uint32_t end, struct dice *d)
{
    switch (numbering) {
    case NUMBER_BREADTH: return first;
    case NUMBER_DEPTH: return end - 1;
    default: return first + dice_below(d, end - first);
    }
}

static uint32_t renamed(const uint32_t *new_number, uint32_t p)
{
    return p == SHEET_NONE ? SHEET_NONE : new_number[p];
}

/* Fills new_number[p] for each node p, going down from the root. */
static void draw_numbers(struct table *t, enum numbering numbering, struct dice *d, uint32_t *new_number)
{
    static uint32_t waiting[TABLE_ROOM];
    uint32_t first = 0, end = 1, number = 0;
    waiting[0] = 0;
    while (first < end) {
        uint32_t place = next_place(numbering, first, end, d);
        uint32_t p = waiting[place];
        if (numbering == NUMBER_DEPTH)
            end--;
        else
            waiting[place] = waiting[first++];
        new_number[p] = number++;
        if (table_node(t, p)[SHEET_TYPE_WORD] == SHEET_GRAY)
            for (int quadrant = 0; quadrant < 4; quadrant++)
                waiting[end++] = table_node(t, p)[SHEET_SON_WORD + quadrant];
    }
}

void table_renumber(struct table *t, enum numbering numbering, struct dice *d)
{
    static uint32_t new_number[TABLE_ROOM], old_words[TABLE_ROOM];
    draw_numbers(t, numbering, d, new_number);
    memcpy(old_words, t->words, t->length * sizeof *old_words);
    for (uint32_t p = 0; p < table_count(t); p++) {
        const uint32_t *old = &old_words[(size_t)p * SHEET_NODE_WORDS];
        uint32_t *node = table_node(t, new_number[p]);
        for (int word = SHEET_FATHER_WORD; word < SHEET_TYPE_WORD; word++)
            node[word] = renamed(new_number, old[word]);
        node[SHEET_TYPE_WORD] = old[SHEET_TYPE_WORD];
    }
}

void table_in_turn(struct table *t, const struct picture *pic, uint32_t turn, struct dice *d)
{
    uint32_t which = turn % (NUMBERINGS + 1);
    table_of_picture(t, pic);
    if (which != NUMBERINGS)
        table_renumber(t, (enum numbering)which, d);
}
