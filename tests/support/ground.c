#include "support/ground.h"

#include <string.h>

#include "second/second.h"

static const uint64_t SIGN = UINT64_C(1) << 63, INFINITE = UINT64_C(0x7ff0000000000000);

double number_of(uint64_t bits)
{
    double number;
    memcpy(&number, &bits, sizeof number);
    return number;
}

uint64_t bits_of(double number)
{
    uint64_t bits;
    memcpy(&bits, &number, sizeof bits);
    return bits;
}

uint64_t ground_draw_bits(struct dice *d)
{
    uint64_t high = dice_word(d);
    return high << 32 | dice_word(d);
}

uint64_t ground_draw_nan(struct dice *d)
{
    return (ground_draw_bits(d) & (SIGN | (UINT64_C(0xfffffffffffff) >> dice_below(d, 52)))) | INFINITE | 1;
}

double ground_draw_number(int lowest, uint32_t span, struct dice *d)
{
    uint64_t exponent = (uint64_t)(1023 + lowest + (int)dice_below(d, span));
    return number_of((ground_draw_bits(d) & ~INFINITE) | exponent << 52);
}

/* A number that is not finite, or has no full exponent. */
static double draw_odd_number(struct dice *d)
{
    uint64_t sign = dice_below(d, 2) ? SIGN : 0;
    switch (dice_below(d, 5)) {
    case 0: return number_of(sign);
    case 1: return number_of(sign | (ground_draw_bits(d) & UINT64_C(0xfffffffffffff) >> dice_below(d, 52)));
    case 2: return number_of(sign | INFINITE);
    case 3: return number_of(ground_draw_nan(d));
    default: return number_of(ground_draw_bits(d));
    }
}

/* A limit, or one of the four numbers next to it. */
static double draw_near(double limit, struct dice *d)
{
    return number_of(bits_of(limit) + dice_below(d, 5) - 2);
}

static double draw_east(struct dice *d)
{
    switch (dice_below(d, 16)) {
    case 0: return draw_near(EAST_LIMIT, d);
    case 1: return draw_near(-EAST_LIMIT, d);
    case 2: return draw_odd_number(d);
    case 3: return (double)dice_below(d, 33554433) - EAST_LIMIT;
    case 4: return ground_draw_number(20, 8, d);
    case 5: return ground_draw_number(-60, 84, d);
    default: return ground_draw_number(-10, 34, d);
    }
}

static double draw_step(struct dice *d)
{
    double number = ground_draw_number(-10, 24, d);
    switch (dice_below(d, 16)) {
    case 0: return draw_near(STEP_LEAST, d);
    case 1: return draw_near(STEP_MOST, d);
    case 2: return draw_odd_number(d);
    case 3: return ground_draw_number(-12, 28, d);
    case 4: return 1 + dice_below(d, 100);
    default: return number < 0 ? -number : number;
    }
}

struct ground ground_draw(struct dice *d)
{
    struct ground g;
    g.east = draw_east(d);
    g.north = draw_east(d);
    g.step = draw_step(d);
    return g;
}

/* How far so many half pixels reach, with one rounding. */
static double way(uint32_t half_pixels, double step)
{
    volatile double result = half_pixels / 2.0 * step;
    return result;
}

struct ground ground_draw_cancelling(uint32_t level, const uint32_t *words, uint32_t node, struct dice *d)
{
    struct second_block b = second_block(level, words, node);
    struct ground g = {0, 0, ground_draw_number(-10, 24, d)};
    g.step = g.step < 0 ? -g.step : g.step;
    g.east = -way(2 * b.left + b.side - 1, g.step);
    g.north = way(2 * b.top + b.side - 1, g.step);
    return g;
}
