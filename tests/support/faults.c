#include "support/faults.h"

#include <string.h>

#include "sheet.h"

/* A word that may stand where 'old' stood in node p of N nodes. */
static uint32_t telling_word(uint32_t old, uint32_t p, uint32_t count, struct dice *d)
{
    switch (dice_below(d, 14)) {
    case 0: return old + 1;
    case 1: return old - 1;
    case 2: return 0;
    case 3: return 1;
    case 4: return 2;
    case 5: return 3;
    case 6: return count - 1;
    case 7: return count;
    case 8: return p;
    case 9: return p + 1;
    case 10: return SHEET_NONE;
    case 11: return SHEET_NONE - 1;
    case 12: return dice_below(d, count);
    default: return dice_word(d);
    }
}

/* A word of the table or, one time in eight, of its last two nodes. */
static uint32_t some_place(const struct table *t, struct dice *d)
{
    uint32_t last = (uint32_t)t->length, from = 0;
    if (dice_below(d, 8) == 0 && last > 2 * SHEET_NODE_WORDS)
        from = last - 2 * SHEET_NODE_WORDS;
    return from + dice_below(d, last - from);
}

void fault_damage(struct table *t, uint32_t words, struct dice *d)
{
    for (; words > 0; words--) {
        uint32_t place = some_place(t, d);
        t->words[place] = telling_word(t->words[place], place / SHEET_NODE_WORDS, table_count(t), d);
    }
}

/* Makes way for a new node k: the nodes from k on, and the words that name
 * them, grow by one. */
static void make_way(struct table *t, uint32_t k)
{
    uint32_t count = table_count(t);
    for (uint32_t p = 0; p < count; p++)
        for (int word = SHEET_FATHER_WORD; word < SHEET_TYPE_WORD; word++)
            if (table_node(t, p)[word] != SHEET_NONE && table_node(t, p)[word] >= k)
                table_node(t, p)[word]++;
    table_append(t, SHEET_NONE, SHEET_WHITE);
    memmove(table_node(t, k + 1), table_node(t, k), (size_t)(count - k) * SHEET_NODE_WORDS * sizeof *t->words);
}

/* A father word for a node k that no fork has as son. */
static uint32_t false_father(uint32_t k, uint32_t count, struct dice *d)
{
    switch (dice_below(d, 6)) {
    case 0: return SHEET_NONE;
    case 1: return k;
    case 2: return k + 1;
    case 3: return count;
    default: return dice_below(d, k);
    }
}

static int is_fork(struct table *t, uint32_t p)
{
    return table_node(t, p)[SHEET_TYPE_WORD] == SHEET_GRAY;
}

static int is_leaf(struct table *t, uint32_t p)
{
    return !is_fork(t, p);
}

static int is_fork_of_leaves(struct table *t, uint32_t p)
{
    for (int quadrant = 0; quadrant < 4; quadrant++)
        if (!is_fork(t, p) || is_fork(t, table_node(t, p)[SHEET_SON_WORD + quadrant]))
            return 0;
    return 1;
}

/* Some node of this sort, or None where the table has none. */
static uint32_t find_node(struct table *t, int (*sort)(struct table *, uint32_t), struct dice *d)
{
    uint32_t count = table_count(t), start = dice_below(d, count);
    for (uint32_t i = 0; i < count; i++)
        if (sort(t, (start + i) % count))
            return (start + i) % count;
    return SHEET_NONE;
}

void fault_double_son(struct table *t, struct dice *d)
{
    uint32_t fork = find_node(t, is_fork, d);
    if (fork == SHEET_NONE)
        return;
    uint32_t *sons = table_node(t, fork) + SHEET_SON_WORD;
    uint32_t dropped = dice_below(d, 4), doubled = (dropped + 1 + dice_below(d, 3)) % 4;
    if (dice_below(d, 2) == 0)
        table_node(t, sons[dropped])[SHEET_FATHER_WORD] = sons[dropped] + dice_below(d, 3);
    sons[dropped] = sons[doubled];
}

static void split_leaf(struct table *t, uint32_t leaf, const uint32_t *colours)
{
    table_node(t, leaf)[SHEET_TYPE_WORD] = SHEET_GRAY;
    for (int quadrant = 0; quadrant < 4; quadrant++)
        table_node(t, leaf)[SHEET_SON_WORD + quadrant] = table_append(t, leaf, colours[quadrant]);
}

static void split_needlessly(struct table *t, uint32_t leaf)
{
    uint32_t colour = table_node(t, leaf)[SHEET_TYPE_WORD];
    uint32_t colours[] = {colour, colour, colour, colour};
    split_leaf(t, leaf, colours);
    if (t->level < SHEET_HIGHEST_LEVEL)
        t->level++;
}

static void give_sons_colour(struct table *t, uint32_t fork, uint32_t colour)
{
    for (int quadrant = 0; quadrant < 4; quadrant++)
        table_node(t, table_node(t, fork)[SHEET_SON_WORD + quadrant])[SHEET_TYPE_WORD] = colour;
}

void fault_needless_fork(struct table *t, struct dice *d)
{
    uint32_t fork = find_node(t, is_fork_of_leaves, d);
    if (fork == SHEET_NONE || (t->level < SHEET_HIGHEST_LEVEL && dice_below(d, 2) == 0))
        split_needlessly(t, find_node(t, is_leaf, d));
    else
        give_sons_colour(t, fork, dice_below(d, 2));
}

static void split_in_any_colours(struct table *t, uint32_t leaf, struct dice *d)
{
    uint32_t colours[] = {dice_below(d, 2), dice_below(d, 2), dice_below(d, 2), dice_below(d, 2)};
    split_leaf(t, leaf, colours);
}

void fault_orphan(struct table *t, struct dice *d)
{
    uint32_t k = 1 + dice_below(d, table_count(t));
    make_way(t, k);
    uint32_t *node = table_node(t, k);
    node[SHEET_FATHER_WORD] = false_father(k, table_count(t), d);
    for (int quadrant = 0; quadrant < 4; quadrant++)
        node[SHEET_SON_WORD + quadrant] = SHEET_NONE;
    node[SHEET_TYPE_WORD] = dice_below(d, 2);
    if (dice_below(d, 4) == 0)
        split_in_any_colours(t, k, d);
}

static void swap_nodes(uint32_t *a, uint32_t *b)
{
    for (int word = 0; word < SHEET_NODE_WORDS; word++) {
        uint32_t kept = a[word];
        a[word] = b[word];
        b[word] = kept;
    }
}

static uint32_t swapped(uint32_t number, uint32_t a, uint32_t b)
{
    return number == a ? b : number == b ? a : number;
}

void fault_son_below_father(struct table *t, struct dice *d)
{
    uint32_t fork = find_node(t, is_fork, d);
    if (fork == SHEET_NONE)
        return;
    uint32_t son = table_node(t, fork)[SHEET_SON_WORD + dice_below(d, 4)];
    for (uint32_t p = 0; p < table_count(t); p++)
        for (int word = SHEET_FATHER_WORD; word < SHEET_TYPE_WORD; word++)
            table_node(t, p)[word] = swapped(table_node(t, p)[word], fork, son);
    swap_nodes(table_node(t, fork), table_node(t, son));
}

static int is_pixel(struct table *t, uint32_t p)
{
    uint32_t depth = 0;
    for (uint32_t at = p; at != 0; at = table_node(t, at)[SHEET_FATHER_WORD])
        depth++;
    return is_leaf(t, p) && depth == t->level;
}

void fault_deep_fork(struct table *t, struct dice *d)
{
    uint32_t pixel = find_node(t, is_pixel, d);
    if (pixel != SHEET_NONE)
        split_in_any_colours(t, pixel, d);
}

void fault_random_words(struct table *t, struct dice *d)
{
    uint32_t count = 1 + dice_below(d, 40);
    t->level = dice_below(d, SHEET_HIGHEST_LEVEL + 1);
    t->length = (size_t)count * SHEET_NODE_WORDS;
    for (uint32_t i = 0; i < t->length; i++)
        t->words[i] = dice_below(d, 2) ? dice_word(d)
                                       : telling_word(SHEET_NONE, i / SHEET_NODE_WORDS, count, d);
}
