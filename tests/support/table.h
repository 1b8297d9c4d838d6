/* Node tables to lend to the calls: made from pictures, numbered in any way. */
#ifndef SUPPORT_TABLE_H
#define SUPPORT_TABLE_H

#include <stddef.h>
#include <stdint.h>

#include "support/dice.h"
#include "support/picture.h"

/* Room for tables well beyond the longest one. */
enum { TABLE_ROOM = 200004 };

struct table {
    uint32_t level;
    size_t length;
    uint32_t words[TABLE_ROOM];
};

enum numbering {
    NUMBER_RANDOM,  /* any node whose father has a number may come next  */
    NUMBER_BREADTH, /* all nodes of a depth before those below them      */
    NUMBER_DEPTH,   /* a node before its sons, sons from SE to NW        */
    NUMBERINGS
};

/* The six words of node p. */
uint32_t *table_node(struct table *t, uint32_t p);

uint32_t table_count(const struct table *t);

/* Puts one more node after the last and gives back its number. Its sons are
 * None. */
uint32_t table_append(struct table *t, uint32_t father, uint32_t type);

/* The preorder table of a picture. */
void table_of_picture(struct table *t, const struct picture *pic);

/* Gives the nodes of a sound table other numbers, fathers still below sons. */
void table_renumber(struct table *t, enum numbering numbering, struct dice *d);

/* The table of a picture in preorder or another numbering, each in its turn. */
void table_in_turn(struct table *t, const struct picture *pic, uint32_t turn, struct dice *d);

#endif
