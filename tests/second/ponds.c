/*
 * The ponds of a sheet, on the raster: pixels are taken by rows, and where a
 * black one has no number yet the water spreads from it, to the four pixels
 * beside each. A black leaf has the number of its pixels.
 */
#include "second/second.h"

/* The raster, and a number for each black pixel that the water has reached. */
struct lake {
    uint32_t side;
    uint8_t black[SECOND_MOST_PIXELS];
    uint32_t number[SECOND_MOST_PIXELS];
};

/* Pixels that have their number, while those beside them wait. */
struct shore {
    uint32_t count;
    uint32_t pixel[SECOND_MOST_PIXELS];
};

static void wet(struct lake *l, struct shore *s, uint32_t x, uint32_t y, uint32_t number)
{
    uint32_t pixel = y * l->side + x;
    if (x < l->side && y < l->side && l->black[pixel] && l->number[pixel] == 0) {
        l->number[pixel] = number;
        s->pixel[s->count++] = pixel;
    }
}

/* West of column 0 and north of row 0 is 4294967295, which is off the sheet. */
static void spread(struct lake *l, uint32_t pixel, uint32_t number)
{
    static struct shore s;
    s.count = 0;
    wet(l, &s, pixel % l->side, pixel / l->side, number);
    while (s.count > 0) {
        uint32_t from = s.pixel[--s.count], x = from % l->side, y = from / l->side;
        wet(l, &s, x, y - 1, number);
        wet(l, &s, x + 1, y, number);
        wet(l, &s, x, y + 1, number);
        wet(l, &s, x - 1, y, number);
    }
}

static uint32_t number_all(struct lake *l)
{
    uint32_t ponds = 0;
    for (uint32_t pixel = 0; pixel < l->side * l->side; pixel++)
        l->number[pixel] = 0;
    for (uint32_t pixel = 0; pixel < l->side * l->side; pixel++)
        if (l->black[pixel] && l->number[pixel] == 0)
            spread(l, pixel, ++ponds);
    return ponds;
}

static void enter_pixel(uint32_t *entry, uint32_t x, uint32_t y)
{
    if (entry[0] == 0) {
        entry[1] = entry[2] = y;
        entry[3] = entry[4] = x;
    }
    entry[0]++;
    if (y < entry[1])
        entry[1] = y;
    if (y > entry[2])
        entry[2] = y;
    if (x < entry[3])
        entry[3] = x;
    if (x > entry[4])
        entry[4] = x;
}

static void fill_register(const struct lake *l, uint32_t ponds, uint32_t *reg)
{
    for (uint32_t k = 0; k < ponds; k++)
        reg[5 * k] = 0;
    for (uint32_t pixel = 0; pixel < l->side * l->side; pixel++)
        if (l->number[pixel] != 0)
            enter_pixel(&reg[5 * (l->number[pixel] - 1)], pixel % l->side, pixel / l->side);
}

static uint64_t count_black_leaves(const uint32_t *table, size_t table_len)
{
    uint64_t black = 0;
    for (size_t p = 0; p < table_len / 6; p++)
        black += table[p * 6 + 5] == 1;
    return black;
}

uint64_t second_ponds(uint32_t n, const uint32_t *table, size_t table_len, uint32_t *numbers, size_t numbers_len,
                      uint32_t *reg, size_t reg_len)
{
    static struct lake l;
    int rule;
    uint64_t check = second_check(n, table, table_len, &rule);
    if (check % 256 == 1 || check % 256 == 2)
        return check;
    if (numbers_len != table_len / 6)
        return 2 + 256 * 1;
    if (check % 256 != 0)
        return check;
    uint64_t black = count_black_leaves(table, table_len);
    if (reg_len / 5 < black)
        return 9 + 256 * (5 * black);
    l.side = UINT32_C(1) << n;
    second_decode(n, table, table_len, l.black, (size_t)l.side * l.side);
    uint32_t ponds = number_all(&l);
    for (uint32_t p = 0; p < table_len / 6; p++) {
        struct second_block b = second_block(n, table, p);
        numbers[p] = table[p * 6 + 5] == 1 ? l.number[b.top * l.side + b.left] : 0;
    }
    fill_register(&l, ponds, reg);
    return 256 * (uint64_t)ponds;
}
