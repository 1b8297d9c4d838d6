/* Faults put into a sound table. */
#ifndef SUPPORT_FAULTS_H
#define SUPPORT_FAULTS_H

#include "support/dice.h"
#include "support/table.h"

/* Writes over some words, with values that lie near a limit or anywhere. */
void fault_damage(struct table *t, uint32_t words, struct dice *d);

/* Puts a leaf between two nodes, or after the last, that no fork has as son; at
 * times it is a fork with four leaves of its own. */
void fault_orphan(struct table *t, struct dice *d);

/* Has a fork name one son twice and another one not at all; the one not named
 * may lose its father too. A table without a fork stays as it is. */
void fault_double_son(struct table *t, struct dice *d);

/* Lets a fork and one of its sons change numbers, so that the son stands before
 * its father. A table without a fork stays as it is. */
void fault_son_below_father(struct table *t, struct dice *d);

/* Splits a leaf into four of its own colour, or gives four leaves of one
 * fork one colour. The level grows by one where the split needs it. */
void fault_needless_fork(struct table *t, struct dice *d);

/* Splits a leaf of one pixel. A table without such a leaf stays as it is. */
void fault_deep_fork(struct table *t, struct dice *d);

/* Fills a table of some nodes with words, half of them near a limit. */
void fault_random_words(struct table *t, struct dice *d);

#endif
