/*
 * Ponds for speed, on bits: the black leaves are painted as rows of bits, like
 * rows one below the other are one band, and the runs of black pixels in each
 * band are joined with those of the band above. A black leaf has the number of
 * the run that holds its first pixel. Runs count by rows, and the first run of a
 * pond leads it, so ponds come in order.
 */
#include "plain/bits.h"
#include "plain/plain.h"
#include "plain/search.h"

enum { BLACK = 1, FORK = 2, MOST_SIDE = 128, MOST_RUNS = MOST_SIDE * MOST_SIDE / 2 };

struct water {
    const uint32_t *table;
    uint32_t side, *numbers, *reg;
    struct plain_line row[MOST_SIDE];
    uint32_t bands;
    uint8_t band_of[MOST_SIDE], top[MOST_SIDE]; /* of a row, of a band             */
    struct plain_line starts[MOST_SIDE];              /* the first pixels of a band's runs */
    uint16_t before[MOST_SIDE + 1];             /* the runs of the bands above     */
    uint16_t pond[1 + MOST_RUNS]; /* run r's, from 1 on: a run of its pond no later than r; then the pond's number */
};

static inline uint32_t type_of(const struct water *w, uint32_t p)
{
    return plain_node(w->table, p)[5];
}

/* ---- bits */

/* How many bits are set up to this one. */
static inline uint32_t rank(const struct plain_line *l, uint32_t x)
{
    uint64_t up_to = (UINT64_C(2) << x % 64) - 1;
    if (x < 64)
        return plain_bits_set(l->bits[0] & up_to);
    return plain_bits_set(l->bits[0]) + plain_bits_set(l->bits[1] & up_to);
}

/* The bits that are set where the one before is not, and where the next is not. */
static inline struct plain_line starts_of(struct plain_line l)
{
    return (struct plain_line){{l.bits[0] & ~(l.bits[0] << 1), l.bits[1] & ~(l.bits[1] << 1 | l.bits[0] >> 63)}};
}

static inline struct plain_line ends_of(struct plain_line l)
{
    return (struct plain_line){{l.bits[0] & ~(l.bits[0] >> 1 | l.bits[1] << 63), l.bits[1] & ~(l.bits[1] >> 1)}};
}

/* Writes the places of all set bits, and gives back how many there are. */
static inline uint32_t places(struct plain_line l, uint8_t *place)
{
    uint32_t count = 0;
    for (uint64_t bits = l.bits[0]; bits != 0; bits &= bits - 1)
        place[count++] = (uint8_t)__builtin_ctzll(bits);
    for (uint64_t bits = l.bits[1]; bits != 0; bits &= bits - 1)
        place[count++] = (uint8_t)(64 + __builtin_ctzll(bits));
    return count;
}

/* ---- rows and bands */

static inline void paint_leaf(struct water *w, uint32_t left, uint32_t top, uint32_t side)
{
    uint64_t bits = plain_span(left, side);
    for (uint32_t y = top; y < top + side; y++)
        w->row[y].bits[left / 64] |= bits;
}

/* Paints what is black below fork p, whose sons have this side, and gives back how
 * many leaves are. */
static uint32_t paint_below(struct water *w, uint32_t p, uint32_t left, uint32_t top, uint32_t side)
{
    const uint32_t *sons = plain_node(w->table, p) + 1;
    uint32_t black = 0;
    if (side == 1) {
        uint64_t nw = type_of(w, sons[0]), ne = type_of(w, sons[1]), sw = type_of(w, sons[2]), se = type_of(w, sons[3]);
        w->row[top].bits[left / 64] |= (nw | ne << 1) << left % 64;
        w->row[top + 1].bits[left / 64] |= (sw | se << 1) << left % 64;
        return (uint32_t)(nw + ne + sw + se);
    }
    for (uint32_t quadrant = 0; quadrant < 4; quadrant++) {
        uint32_t son_left = left + (quadrant & 1) * side, son_top = top + (quadrant >> 1) * side;
        uint32_t type = type_of(w, sons[quadrant]);
        if (type == FORK) {
            black += paint_below(w, sons[quadrant], son_left, son_top, side / 2);
        } else if (type == BLACK) {
            paint_leaf(w, son_left, son_top, side);
            black++;
        }
    }
    return black;
}

static inline int are_alike(const struct plain_line *a, const struct plain_line *b)
{
    return a->bits[0] == b->bits[0] && a->bits[1] == b->bits[1];
}

/* Finds the bands, and counts their runs, each a pond of its own. */
static void find_bands(struct water *w)
{
    uint32_t runs = 0;
    w->bands = 0;
    for (uint32_t y = 0; y < w->side; y++) {
        if (y == 0 || !are_alike(&w->row[y], &w->row[y - 1])) {
            w->top[w->bands] = (uint8_t)y;
            w->starts[w->bands] = starts_of(w->row[y]);
            w->before[w->bands] = (uint16_t)runs;
            runs += rank(&w->starts[w->bands], MOST_SIDE - 1);
            w->bands++;
        }
        w->band_of[y] = (uint8_t)(w->bands - 1);
    }
    w->before[w->bands] = (uint16_t)runs;
    for (uint32_t r = 0; r <= runs; r++)
        w->pond[r] = (uint16_t)r;
}

/* ---- the ponds */

static inline uint32_t leader(struct water *w, uint32_t run)
{
    while (w->pond[run] != run)
        run = w->pond[run] = w->pond[w->pond[run]];
    return run;
}

static inline void join(struct water *w, uint32_t a, uint32_t b)
{
    a = leader(w, a);
    b = leader(w, b);
    if (a < b)
        w->pond[b] = (uint16_t)a;
    else
        w->pond[a] = (uint16_t)b;
}

/* Two runs touch where both have a pixel, and then in one stretch. */
static void join_bands(struct water *w)
{
    uint8_t place[MOST_SIDE];
    for (uint32_t k = 1; k < w->bands; k++) {
        const struct plain_line *above = &w->row[w->top[k - 1]], *here = &w->row[w->top[k]];
        struct plain_line both = {{above->bits[0] & here->bits[0], above->bits[1] & here->bits[1]}};
        uint32_t touching = places(starts_of(both), place);
        for (uint32_t i = 0; i < touching; i++)
            join(w, w->before[k - 1] + rank(&w->starts[k - 1], place[i]), w->before[k] + rank(&w->starts[k], place[i]));
    }
}

static inline void enter(uint32_t *entry, uint32_t first, uint32_t last, uint32_t top, uint32_t bottom)
{
    entry[0] += (last - first + 1) * (bottom - top);
    entry[2] = bottom - 1;
    entry[3] = first < entry[3] ? first : entry[3];
    entry[4] = last > entry[4] ? last : entry[4];
}

/* Gives each run its pond's number and enters it; how many ponds there are. */
static uint32_t number_runs(struct water *w)
{
    uint8_t first[MOST_SIDE], last[MOST_SIDE];
    uint32_t ponds = 0, run = 1;
    for (uint32_t k = 0; k < w->bands; k++) {
        uint32_t top = w->top[k], bottom = k + 1 < w->bands ? w->top[k + 1] : w->side;
        uint32_t runs = places(w->starts[k], first);
        places(ends_of(w->row[top]), last);
        for (uint32_t i = 0; i < runs; i++, run++) {
            uint32_t *entry = w->reg + 5 * ponds;
            if (w->pond[run] == run) {
                entry[0] = entry[4] = 0;
                entry[1] = top;
                entry[3] = PLAIN_NONE;
                w->pond[run] = (uint16_t)++ponds;
            } else {
                w->pond[run] = w->pond[w->pond[run]];
                entry = w->reg + 5 * (w->pond[run] - UINT32_C(1));
            }
            enter(entry, first[i], last[i], top, bottom);
        }
    }
    return ponds;
}

/* The last run that begins at this pixel or before it, counted from 1. */
static inline uint32_t run_at(const struct water *w, uint32_t x, uint32_t y)
{
    return w->before[w->band_of[y]] + rank(&w->starts[w->band_of[y]], x);
}

/* The numbers of two pixels side by side, the first in an even column. */
static inline void number_two(const struct water *w, uint32_t p, uint32_t q, uint32_t x, uint32_t y)
{
    uint32_t run = run_at(w, x, y), begins = w->starts[w->band_of[y]].bits[x / 64] >> (x % 64 + 1) & 1;
    w->numbers[p] = w->pond[run] & -type_of(w, p);
    w->numbers[q] = w->pond[run + begins] & -type_of(w, q);
}

static void number_below(const struct water *w, uint32_t p, uint32_t left, uint32_t top, uint32_t side)
{
    const uint32_t *sons = plain_node(w->table, p) + 1;
    w->numbers[p] = 0;
    if (side == 1) {
        number_two(w, sons[0], sons[1], left, top);
        number_two(w, sons[2], sons[3], left, top + 1);
        return;
    }
    for (uint32_t quadrant = 0; quadrant < 4; quadrant++) {
        uint32_t son = sons[quadrant], type = type_of(w, son);
        uint32_t son_left = left + (quadrant & 1) * side, son_top = top + (quadrant >> 1) * side;
        if (type == FORK)
            number_below(w, son, son_left, son_top, side / 2);
        else
            w->numbers[son] = type == BLACK ? w->pond[run_at(w, son_left, son_top)] : 0;
    }
}

/* The ponds of a sheet of one leaf. */
static uint64_t one_leaf(const struct water *w, size_t reg_len)
{
    uint32_t black = type_of(w, 0);
    if (reg_len < 5 * black)
        return 9 + 256 * 5;
    w->numbers[0] = black;
    if (black) {
        w->reg[0] = w->side * w->side;
        w->reg[1] = w->reg[3] = 0;
        w->reg[2] = w->reg[4] = w->side - 1;
    }
    return 256 * black;
}

uint64_t plain_ponds(uint32_t n, const uint32_t *table, size_t table_len, uint32_t *numbers, size_t numbers_len,
                     uint32_t *reg, size_t reg_len)
{
    struct water w;
    uint64_t check = plain_check(n, table, table_len);
    if (check % 256 == 1 || check % 256 == 2)
        return check;
    if (numbers_len != table_len / 6)
        return 2 + 256 * 1;
    if (check % 256 != 0)
        return check;
    w.table = table;
    w.side = UINT32_C(1) << n;
    w.numbers = numbers;
    w.reg = reg;
    if (type_of(&w, 0) != FORK)
        return one_leaf(&w, reg_len);
    for (uint32_t y = 0; y < w.side; y++)
        w.row[y] = (struct plain_line){{0, 0}};
    uint64_t need = 5 * (uint64_t)paint_below(&w, 0, 0, 0, w.side / 2);
    if (reg_len < need)
        return 9 + 256 * need;
    find_bands(&w);
    join_bands(&w);
    uint32_t ponds = number_runs(&w);
    number_below(&w, 0, 0, 0, w.side / 2);
    return 256 * (uint64_t)ponds;
}
