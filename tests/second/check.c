/*
 * The check of a node table, as document 01 has it: the nodes in rising number,
 * and for each node the six rules in their order. Nothing is remembered from
 * one node to the next.
 */
#include "second/second.h"

struct nodes {
    const uint32_t *words;
    uint32_t count;
};

static const uint32_t NONE = 4294967295u;

static uint32_t father(const struct nodes *t, uint32_t p)
{
    return t->words[(size_t)p * 6];
}

static uint32_t son(const struct nodes *t, uint32_t p, int quadrant)
{
    return t->words[(size_t)p * 6 + 1 + (size_t)quadrant];
}

static uint32_t type(const struct nodes *t, uint32_t p)
{
    return t->words[(size_t)p * 6 + 5];
}

static int is_fork(const struct nodes *t, uint32_t p)
{
    return type(t, p) == 2;
}

/* Steps from p up to the root. All of p's ancestors have passed rule 2. */
static uint32_t depth(const struct nodes *t, uint32_t p)
{
    uint32_t steps = 0;
    while (p != 0) {
        p = father(t, p);
        steps++;
    }
    return steps;
}

static int type_is_known(const struct nodes *t, uint32_t p)
{
    return type(t, p) == 0 || type(t, p) == 1 || type(t, p) == 2;
}

static int father_is_below(const struct nodes *t, uint32_t p)
{
    return p == 0 ? father(t, p) == NONE : father(t, p) < p;
}

static int father_names_once(const struct nodes *t, uint32_t p)
{
    int named = 0;
    if (p == 0)
        return 1;
    for (int quadrant = 0; quadrant < 4; quadrant++)
        if (son(t, father(t, p), quadrant) == p)
            named++;
    return named == 1;
}

static int sons_are_right(const struct nodes *t, uint32_t p)
{
    for (int quadrant = 0; quadrant < 4; quadrant++) {
        uint32_t s = son(t, p, quadrant);
        if (is_fork(t, p)) {
            if (!(s > p))
                return 0;
            if (!(s < t->count))
                return 0;
            if (father(t, s) != p)
                return 0;
        } else if (s != NONE) {
            return 0;
        }
    }
    return 1;
}

static int depth_is_below(const struct nodes *t, uint32_t p, uint32_t n)
{
    return !is_fork(t, p) || depth(t, p) < n;
}

static int sons_all_have(const struct nodes *t, uint32_t p, uint32_t wanted)
{
    int alike = 0;
    for (int quadrant = 0; quadrant < 4; quadrant++)
        if (type(t, son(t, p, quadrant)) == wanted)
            alike++;
    return alike == 4;
}

static int fork_is_needed(const struct nodes *t, uint32_t p)
{
    return !is_fork(t, p) || (!sons_all_have(t, p, 0) && !sons_all_have(t, p, 1));
}

/* The first of the six rules that node p breaks, or 0. */
static int broken_rule(const struct nodes *t, uint32_t p, uint32_t n)
{
    if (!type_is_known(t, p))
        return 1;
    if (!father_is_below(t, p))
        return 2;
    if (!father_names_once(t, p))
        return 3;
    if (!sons_are_right(t, p))
        return 4;
    if (!depth_is_below(t, p, n))
        return 5;
    if (!fork_is_needed(t, p))
        return 6;
    return 0;
}

static uint64_t code_of_rule(int rule)
{
    return rule <= 4 ? 3 : rule == 5 ? 4 : 5;
}

uint64_t second_check(uint32_t n, const uint32_t *table, size_t table_len, int *rule)
{
    struct nodes t = {table, 0};
    *rule = 0;
    if (n > 7)
        return 1;
    if (table_len == 0 || table_len % 6 != 0 || table_len > 131070)
        return 2;
    t.count = (uint32_t)(table_len / 6);
    for (uint32_t p = 0; p < t.count; p++) {
        *rule = broken_rule(&t, p, n);
        if (*rule != 0)
            return code_of_rule(*rule) + (uint64_t)p * 256;
    }
    return (uint64_t)t.count * 256;
}
