/* Ground places to give to sheet_centre. Numbers are drawn as bits, so that NaNs
 * keep their payloads and zeros their signs. */
#ifndef SUPPORT_GROUND_H
#define SUPPORT_GROUND_H

#include <stdint.h>

#include "support/dice.h"

#define EAST_LIMIT 16777216.0
#define STEP_LEAST (1.0 / 1024)
#define STEP_MOST 16384.0

struct ground {
    double east, north, step;
};

double number_of(uint64_t bits);
uint64_t bits_of(double number);

/* Any 64 bits. */
uint64_t ground_draw_bits(struct dice *d);

/* A NaN of either sign, quiet or not, with any payload. */
uint64_t ground_draw_nan(struct dice *d);

/* A number of any sign with an exponent of this span. */
double ground_draw_number(int lowest, uint32_t span, struct dice *d);

/* A ground in range or, at times, with a number that is not, or just is. */
struct ground ground_draw(struct dice *d);

/* A ground on which the centre of this node of a sound table is at 0, 0. */
struct ground ground_draw_cancelling(uint32_t level, const uint32_t *words, uint32_t node, struct dice *d);

#endif
