/*
 * The check for speed. A sound table is seen whole by going down from the root,
 * each fork once, its level in hand: a node has one father word, so it is seen
 * at most once, and all N must be seen. Only if that fails does the ordered
 * loop run, to name the first fault.
 */
#include <string.h>

#include "plain/plain.h"

#define NONE UINT32_MAX

struct nodes {
    const uint32_t *words;
    uint32_t count;
};

static const uint32_t *node(const struct nodes *t, uint32_t p)
{
    return t->words + (size_t)p * 6;
}

/* Are all four son words None? They are taken two at a time. */
static int has_no_sons(const uint32_t *w)
{
    uint64_t upper, lower;
    memcpy(&upper, w + 1, sizeof upper);
    memcpy(&lower, w + 3, sizeof lower);
    return (upper & lower) == UINT64_MAX;
}

static inline int have_father(const struct nodes *t, uint32_t p, const uint32_t *s)
{
    return ((node(t, s[0])[0] ^ p) | (node(t, s[1])[0] ^ p) | (node(t, s[2])[0] ^ p) | (node(t, s[3])[0] ^ p)) == 0;
}

/* Are these sons nodes above p whose father is p? */
static int are_sons(const struct nodes *t, uint32_t p, const uint32_t *s)
{
    uint32_t count = t->count;
    return s[0] > p && s[1] > p && s[2] > p && s[3] > p && s[0] < count && s[1] < count && s[2] < count &&
           s[3] < count && have_father(t, p, s);
}

static int are_like_leaves(const struct nodes *t, const uint32_t *s)
{
    uint32_t type = node(t, s[0])[5];
    return type < 2 && node(t, s[1])[5] == type && node(t, s[2])[5] == type && node(t, s[3])[5] == type;
}

/* Are these four different nodes above p? Those that stand in order need fewer
 * comparisons. */
static inline int are_above(const struct nodes *t, uint32_t p, const uint32_t *s, int in_order)
{
    uint32_t nw = s[0], ne = s[1], sw = s[2], se = s[3], count = t->count;
    if (in_order)
        return p < nw && nw < ne && ne < sw && sw < se && se < count;
    return nw > p && ne > p && sw > p && se > p && nw < count && ne < count && sw < count && se < count &&
           ((nw != ne) & (nw != sw) & (nw != se) & (ne != sw) & (ne != se) & (sw != se));
}

/* The nodes below and with fork p, at this level, or 0 if something is wrong or,
 * where order is asked for, sons do not stand in the order NW, NE, SW, SE. */
static uint32_t seen_below(const struct nodes *t, uint32_t p, uint32_t level, int in_order)
{
    const uint32_t *sons = node(t, p) + 1;
    uint32_t seen = 1, types = 0;
    if (level == 0 || !are_above(t, p, sons, in_order) || !have_father(t, p, sons))
        return 0;
    for (int quadrant = 0; quadrant < 4; quadrant++) {
        const uint32_t *son = node(t, sons[quadrant]);
        types |= son[5] + 1;
        if (son[5] == 2) {
            uint32_t below = seen_below(t, sons[quadrant], level - 1, in_order);
            if (below == 0)
                return 0;
            seen += below;
        } else {
            if (son[5] > 2 || !has_no_sons(son))
                return 0;
            seen++;
        }
    }
    return types == 3 ? seen : 0;
}

static int is_sound(const struct nodes *t, uint32_t n)
{
    const uint32_t *root = node(t, 0);
    if (root[0] != NONE)
        return 0;
    if (root[5] == 2)
        return seen_below(t, 0, n, 1) == t->count || seen_below(t, 0, n, 0) == t->count;
    return root[5] < 2 && t->count == 1 && has_no_sons(root);
}

static uint32_t depth(const struct nodes *t, uint32_t p)
{
    uint32_t steps = 0;
    for (; p != 0; p = node(t, p)[0])
        steps++;
    return steps;
}

static int is_named_once(const struct nodes *t, uint32_t p)
{
    const uint32_t *sons = node(t, node(t, p)[0]) + 1;
    return (sons[0] == p) + (sons[1] == p) + (sons[2] == p) + (sons[3] == p) == 1;
}

/* The code of node p's first fault, or 0. */
static uint64_t fault(const struct nodes *t, uint32_t p, uint32_t n)
{
    const uint32_t *w = node(t, p);
    if (w[5] > 2 || (p == 0 ? w[0] != NONE : w[0] >= p || !is_named_once(t, p)))
        return 3;
    if (w[5] < 2)
        return has_no_sons(w) ? 0 : 3;
    if (!are_sons(t, p, w + 1))
        return 3;
    if (depth(t, p) >= n)
        return 4;
    return are_like_leaves(t, w + 1) ? 5 : 0;
}

static uint64_t first_fault(const struct nodes *t, uint32_t n)
{
    for (uint32_t p = 0; p < t->count; p++) {
        uint64_t code = fault(t, p, n);
        if (code != 0)
            return code + 256 * (uint64_t)p;
    }
    return 256 * (uint64_t)t->count;
}

uint64_t plain_check(uint32_t n, const uint32_t *table, size_t table_len)
{
    if (n > 7)
        return 1;
    if (table_len == 0 || table_len > 131070 || table_len % 6 != 0)
        return 2;
    struct nodes t = {table, (uint32_t)(table_len / 6)};
    return is_sound(&t, n) ? 256 * (uint64_t)t.count : first_fault(&t, n);
}
