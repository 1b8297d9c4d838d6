#include "second/cover.h"

#include "second/second.h"

static const uint32_t NONE = 4294967295u;

static struct second_square square_of(struct second_block b)
{
    struct second_square s = {(int32_t)b.left, (int32_t)b.top, (int32_t)b.side, 0};
    for (int32_t side = 1; side < s.side; side *= 2)
        s.level++;
    return s;
}

static void clear(struct second_cover *c)
{
    for (int32_t level = 0; level <= c->level; level++)
        for (int32_t pixel = 0; pixel < c->side * c->side; pixel++)
            c->node[level][pixel] = NONE;
}

static void mark(struct second_cover *c, uint32_t p)
{
    struct second_square s = c->square[p];
    for (int32_t y = s.top; y < s.top + s.side; y++)
        for (int32_t x = s.left; x < s.left + s.side; x++)
            c->node[s.level][y * c->side + x] = p;
}

void second_cover(struct second_cover *c, uint32_t n, const uint32_t *table, size_t table_len)
{
    int rule;
    c->check = second_check(n, table, table_len, &rule);
    if (c->check % 256 != 0)
        return;
    c->level = (int32_t)n;
    c->side = INT32_C(1) << n;
    c->count = (uint32_t)(table_len / 6);
    clear(c);
    for (uint32_t p = 0; p < c->count; p++) {
        c->type[p] = table[p * 6 + 5];
        c->square[p] = square_of(second_block(n, table, p));
        mark(c, p);
    }
}

int second_on_sheet(const struct second_cover *c, struct second_square s)
{
    return s.left >= 0 && s.top >= 0 && s.left + s.side <= c->side && s.top + s.side <= c->side;
}

uint32_t second_leaf_at(const struct second_cover *c, struct second_square pixel)
{
    for (int32_t level = 0; level <= c->level; level++) {
        uint32_t p = c->node[level][pixel.top * c->side + pixel.left];
        if (p != NONE && c->type[p] != 2)
            return p;
    }
    return NONE;
}

uint64_t second_found(const struct second_cover *c, uint32_t node)
{
    return 256 * (8 * (uint64_t)node + (uint64_t)c->square[node].level);
}
