/*
 * The test of a call that asks for a node near another one: the call takes a
 * sheet, a node and one or two numbers that say where to look, and gives a node
 * and its level back. All such calls are held against the second implementation
 * in one way.
 */
#ifndef SUPPORT_ASKING_H
#define SUPPORT_ASKING_H

#include <stddef.h>
#include <stdint.h>

#include "second/cover.h"

enum { MOST_NUMBERS = 2 };

struct asking {
    uint64_t (*library)(uint32_t n, const uint32_t *table, size_t table_len, uint32_t node, const uint32_t *numbers);
    uint64_t (*second)(const struct second_cover *c, uint32_t node, const uint32_t *numbers);
    uint32_t numbers; /* how many numbers the call takes                      */
    uint32_t below;   /* a number from here on is wrong whatever the others   */
    int smaller;      /* may the answer be smaller than the node asked about? */
};

/* An answer worked out by hand. */
struct asked {
    const char *name;
    uint32_t node, numbers[MOST_NUMBERS], code, value;
};

/* The code and the value where a node is found, and has this level. */
#define FOUND(node, level) 0, (node) * 8 + (level)

/* Sets up the test of one call; the others follow it. */
void asking_open(const struct asking *call);

/* A list and its length, as two arguments. */
#define ALL(list) (list), sizeof(list) / sizeof *(list)

/* Reports each answer worked out by hand for one table. */
void asking_by_hand(uint32_t level, const uint32_t *words, size_t length, const struct asked *asked, size_t count);

/* Reports the comparisons: every node with all numbers below the limit on every
 * picture of levels 0 to 2, on thousands of sheets of levels 0 to 5 and on
 * dozens of levels 6 and 7; then wrong tables and wrong numbers. */
void asking_compare(void);

/* Reports that each code was met, and that no other one was. */
void asking_codes(void);

/* Reports that nodes of each level were answered, and of each size beside the
 * node asked about: larger ones, its own size and, where that may be, smaller
 * ones. */
void asking_levels(void);

#endif
