/* Tables, pictures and levels of every kind that the calls may be given, sound
 * and unsound. */
#ifndef SUPPORT_SAMPLE_H
#define SUPPORT_SAMPLE_H

#include "support/dice.h"
#include "support/table.h"

enum sample {
    SAMPLE_PREORDER,
    SAMPLE_RENUMBERED,
    SAMPLE_DAMAGED,
    SAMPLE_ORPHAN,
    SAMPLE_DOUBLE_SON,
    SAMPLE_SON_BELOW_FATHER,
    SAMPLE_LOWER_LEVEL,
    SAMPLE_DEEP_FORK,
    SAMPLE_NEEDLESS_FORK,
    SAMPLE_RANDOM_WORDS,
    SAMPLE_CUT_LENGTH,
    SAMPLE_HOSTILE_LEVEL,
    SAMPLES
};

/* Makes one such table. Small levels are drawn far more often than large ones. */
void sample_make(struct table *t, enum sample sample, struct dice *d);

/* Draws a picture of any kind, of small levels far more often than of large
 * ones. */
void sample_picture(struct picture *pic, struct dice *d);

/* A node of the table or, one time in four, a number that is none. */
uint32_t sample_node(const struct table *t, struct dice *d);

/* A number below the bound or, one time in four, one from the bound on. */
uint32_t sample_number(uint32_t bound, struct dice *d);

/* Room for so many elements: just so many, a few more or less, none or any. */
size_t sample_room(size_t needed, struct dice *d);

/* A level above 7: near a limit, or anywhere. */
uint32_t sample_hostile_level(struct dice *d);

#endif
