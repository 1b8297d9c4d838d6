/*
 * The chessboard distance for speed, on bits: one way down the tree marks the
 * white pixels in rows and in columns, a second one widens a frame round each
 * black leaf until it meets one. A leaf of one pixel needs no frame: one of its
 * brothers is white, so the distance is 1.
 */
#include "plain/bits.h"
#include "plain/plain.h"
#include "plain/search.h"

enum { WHITE = 0, BLACK = 1, FORK = 2, MOST_SIDE = 128 };

struct sheet {
    const uint32_t *table;
    uint32_t side, *distances;
    struct plain_line row[MOST_SIDE], column[MOST_SIDE];
};

static inline uint32_t type_of(const struct sheet *s, uint32_t p)
{
    return plain_node(s->table, p)[5];
}

/* ---- the white pixels */

static void mark(struct sheet *s, uint32_t left, uint32_t top, uint32_t side)
{
    uint64_t across = plain_span(left, side), down = plain_span(top, side);
    for (uint32_t i = 0; i < side; i++) {
        s->row[top + i].bits[left / 64] |= across;
        s->column[left + i].bits[top / 64] |= down;
    }
}

/* Marks four pixels; their types are their distances too. */
static inline void mark_pixels(struct sheet *s, const uint32_t *sons, uint32_t left, uint32_t top)
{
    uint64_t type[4];
    for (uint32_t quadrant = 0; quadrant < 4; quadrant++)
        s->distances[sons[quadrant]] = (uint32_t)(type[quadrant] = type_of(s, sons[quadrant]));
    s->row[top].bits[left / 64] |= (3 ^ type[0] ^ type[1] << 1) << left % 64;
    s->row[top + 1].bits[left / 64] |= (3 ^ type[2] ^ type[3] << 1) << left % 64;
    s->column[left].bits[top / 64] |= (3 ^ type[0] ^ type[2] << 1) << top % 64;
    s->column[left + 1].bits[top / 64] |= (3 ^ type[1] ^ type[3] << 1) << top % 64;
}

/* Marks what is white below fork p, whose sons have this side, and writes all
 * distances but those of larger black leaves. */
static void mark_below(struct sheet *s, uint32_t p, uint32_t left, uint32_t top, uint32_t side)
{
    const uint32_t *sons = plain_node(s->table, p) + 1;
    s->distances[p] = 0;
    if (side == 1) {
        mark_pixels(s, sons, left, top);
        return;
    }
    for (uint32_t quadrant = 0; quadrant < 4; quadrant++) {
        uint32_t son = sons[quadrant], type = type_of(s, son);
        uint32_t son_left = left + (quadrant & 1) * side, son_top = top + (quadrant >> 1) * side;
        if (type == FORK) {
            mark_below(s, son, son_left, son_top, side / 2);
        } else if (type == WHITE) {
            s->distances[son] = 0;
            mark(s, son_left, son_top, side);
        }
    }
}

/* ---- the frames */

static inline struct plain_line widened(struct plain_line l)
{
    uint64_t first = l.bits[0], last = l.bits[1];
    l.bits[0] |= first << 1 | first >> 1 | last << 63;
    l.bits[1] |= last << 1 | last >> 1 | first >> 63;
    return l;
}

static inline uint64_t common(struct plain_line a, struct plain_line b)
{
    return (a.bits[0] & b.bits[0]) | (a.bits[1] & b.bits[1]);
}

/* How many frames of one pixel's width round this leaf have no white in them. */
static uint32_t gap_of(const struct sheet *s, uint32_t left, uint32_t top, uint32_t side)
{
    struct plain_line across = {{0, 0}}, down = {{0, 0}};
    across.bits[left / 64] = plain_span(left, side);
    down.bits[top / 64] = plain_span(top, side);
    for (uint32_t gap = 0;; gap++) {
        uint32_t right = left + side + gap, bottom = top + side + gap;
        uint64_t met = 0;
        across = widened(across);
        down = widened(down);
        if (top > gap)
            met |= common(across, s->row[top - gap - 1]);
        if (bottom < s->side)
            met |= common(across, s->row[bottom]);
        if (left > gap)
            met |= common(down, s->column[left - gap - 1]);
        if (right < s->side)
            met |= common(down, s->column[right]);
        if (met != 0)
            return gap;
    }
}

/* The distances of the black leaves below fork p; pixels have theirs. */
static void measure_below(const struct sheet *s, uint32_t p, uint32_t left, uint32_t top, uint32_t side)
{
    const uint32_t *sons = plain_node(s->table, p) + 1;
    for (uint32_t quadrant = 0; quadrant < 4 && side > 1; quadrant++) {
        uint32_t son = sons[quadrant], type = type_of(s, son);
        uint32_t son_left = left + (quadrant & 1) * side, son_top = top + (quadrant >> 1) * side;
        if (type == FORK)
            measure_below(s, son, son_left, son_top, side / 2);
        else if (type == BLACK)
            s->distances[son] = side + 2 * gap_of(s, son_left, son_top, side);
    }
}

uint64_t plain_distance(uint32_t n, const uint32_t *table, size_t table_len, uint32_t *distances, size_t distances_len)
{
    struct sheet s;
    uint64_t check = plain_check(n, table, table_len);
    if (check % 256 == 1 || check % 256 == 2)
        return check;
    if (distances_len != table_len / 6)
        return 2 + 256 * 1;
    if (check % 256 != 0)
        return check;
    s.table = table;
    s.side = UINT32_C(1) << n;
    s.distances = distances;
    if (type_of(&s, 0) != FORK) {
        distances[0] = type_of(&s, 0) == BLACK ? PLAIN_NONE : 0;
        return 0;
    }
    for (uint32_t i = 0; i < s.side; i++)
        s.row[i] = s.column[i] = (struct plain_line){{0, 0}};
    mark_below(&s, 0, 0, 0, s.side / 2);
    measure_below(&s, 0, 0, 0, s.side / 2);
    return 0;
}
