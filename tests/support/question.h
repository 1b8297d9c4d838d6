/*
 * One question to one of the calls, put to the library and to the second
 * implementation alike. A question holds all that the call is given; what the
 * library is lent stands between guards.
 */
#ifndef SUPPORT_QUESTION_H
#define SUPPORT_QUESTION_H

#include <stddef.h>
#include <stdint.h>
#include <stdio.h>

#include "support/ground.h"
#include "support/lender.h"

enum call {
    CALL_CHECK,
    CALL_BUILD,
    CALL_DECODE,
    CALL_NEIGHBOUR,
    CALL_CORNER_LEAF,
    CALL_DIAGONAL_LEAF,
    CALL_DISTANCE,
    CALL_PONDS,
    CALL_READ,
    CALL_WRITE,
    CALL_CENTRE,
    CALLS
};

enum { MOST_CODES = 9, MOST_SLICES = 3 };

/* What the header says of a call: its name without 'sheet_', the codes that it
 * may give, and its slices, the one that is only read first. */
struct call_form {
    const char *name;
    size_t codes;
    uint32_t code[MOST_CODES];
    size_t slices;
    const char *slice_name[MOST_SLICES];
    size_t element_size[MOST_SLICES];
};

extern const struct call_form call_form[CALLS];

/* The calls as the library has them, or as others of the same form. */
struct calls {
    uint64_t (*check)(uint32_t, const uint32_t *, size_t);
    uint64_t (*build)(uint32_t, const uint8_t *, size_t, uint32_t *, size_t);
    uint64_t (*decode)(uint32_t, const uint32_t *, size_t, uint8_t *, size_t);
    uint64_t (*neighbour)(uint32_t, const uint32_t *, size_t, uint32_t, uint32_t);
    uint64_t (*corner_leaf)(uint32_t, const uint32_t *, size_t, uint32_t, uint32_t, uint32_t);
    uint64_t (*diagonal_leaf)(uint32_t, const uint32_t *, size_t, uint32_t, uint32_t);
    uint64_t (*distance)(uint32_t, const uint32_t *, size_t, uint32_t *, size_t);
    uint64_t (*ponds)(uint32_t, const uint32_t *, size_t, uint32_t *, size_t, uint32_t *, size_t);
    uint64_t (*read)(const uint8_t *, size_t, uint32_t *, size_t);
    uint64_t (*write)(uint32_t, const uint32_t *, size_t, uint8_t *, size_t);
    uint64_t (*centre)(uint32_t, const uint32_t *, size_t, uint32_t, double, double, double, double *, size_t);
};

extern const struct calls library_calls;

/* What the slices that a call may write are full of when they are lent. */
enum filling { FILL_PATTERN, FILL_ZEROS, FILL_ONES, FILLINGS };

struct question {
    enum call call;
    uint32_t level, node, numbers[2]; /* the numbers: a direction or corner, or a side and a corner */
    struct ground ground;
    const void *contents;        /* of the slice that is only read */
    size_t lengths[MOST_SLICES]; /* in elements                    */
    enum filling filling;
    enum lend_at at[MOST_SLICES];
    int null_where_empty; /* is an empty slice's pointer NULL? */
};

struct outcome {
    uint64_t wanted, given;
    int buffers_right; /* every byte lent, and the guards */
};

/* Puts the question to one of these calls, with these slices, and gives back its
 * answer. */
uint64_t question_put(const struct question *q, const struct calls *to, void *const *slices);

/* Asks these calls and the second implementation; question_ask asks the library
 * so. A slice may be as long as a struct table's words. */
struct outcome question_ask_of(const struct question *q, const struct calls *asked);
struct outcome question_ask(const struct question *q);

int outcome_is_right(const struct outcome *o);

/* A code's name in the header without 'SHEET_', or "none". */
const char *code_name(uint32_t code);

/* Prints what was asked and what was answered, in a few lines; the contents
 * too where they are short. */
void question_print(FILE *to, const struct question *q, const struct outcome *o);

#endif
