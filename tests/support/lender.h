/*
 * Buffers lent to a call. Guard bytes stand before and after each one, or a
 * page that can be neither read nor written, where the program would stop.
 */
#ifndef SUPPORT_LENDER_H
#define SUPPORT_LENDER_H

#include <stddef.h>

enum lend_at {
    LEND_MIDDLE, /* guard bytes on both sides             */
    LEND_FIRST,  /* a forbidden page right before it      */
    LEND_LAST,   /* a forbidden page right after it       */
    LEND_PLACES
};

/* The room is mapped twice: what is put in at 'room' is seen at 'room_to_read',
 * where nothing can be written. */
struct lender {
    unsigned char *room, *room_to_read, *copy;
    size_t room_size;
    unsigned char *lent;
    size_t lent_start, lent_size;
};

/* A lender of buffers of up to 'most' bytes. Stops the program if the system
 * gives no memory. */
struct lender lender_open(size_t most);

/* Lends one buffer with these contents; the buffer lent before is taken back. */
void *lend(struct lender *l, const void *contents, size_t size, enum lend_at at);

/* Lends one buffer that is only to be read: a write to it stops the program, even
 * one that is taken back. */
void *lend_to_read(struct lender *l, const void *contents, size_t size, enum lend_at at);

/* Lends one buffer full of a pattern that no call writes: bytes from 128 to 250. */
void *lend_pattern(struct lender *l, size_t size, enum lend_at at);

/* Are the guards whole, and the contents now these, as many bytes as were lent? */
int lent_holds(const struct lender *l, const void *contents);

/* Are the guards whole, and the contents still those that were lent? */
int lent_unchanged(const struct lender *l);

#endif
