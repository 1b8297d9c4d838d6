/*
 * A node's centre on the ground, as document 01 has it and document 02's No. 2
 * moves it. A product is stored before it is used again, so that it is not
 * fused with a sum or a difference; h - 1 and its half are exact.
 */
#include "second/second.h"

#if defined(__clang__)
#pragma STDC FP_CONTRACT OFF
#endif

/* A NaN lies nowhere. */
static int lies(double number, double from, double to)
{
    return number >= from && number <= to;
}

static double product(double a, double b)
{
    volatile double result = a * b;
    return result;
}

static double sum(double a, double b)
{
    volatile double result = a + b;
    return result;
}

static double difference(double a, double b)
{
    volatile double result = a - b;
    return result;
}

uint64_t second_centre(uint32_t n, const uint32_t *table, size_t table_len, uint32_t node, double east, double north,
                       double step, double *place, size_t place_len)
{
    int rule;
    uint64_t check = second_check(n, table, table_len, &rule);
    if (check % 256 != 0)
        return check;
    if (node >= table_len / 6)
        return 6 + 256 * (uint64_t)node;
    if (!lies(east, -16777216, 16777216))
        return 11;
    if (!lies(north, -16777216, 16777216))
        return 11 + 256 * 1;
    if (!lies(step, 1.0 / 1024, 16384))
        return 11 + 256 * 2;
    if (place_len < 2)
        return 9 + 256 * 2;
    struct second_block b = second_block(n, table, node);
    double h = 2 * b.left + b.side, k = 2 * b.top + b.side;
    place[0] = sum(east, product((h - 1) / 2, step));
    place[1] = difference(north, product((k - 1) / 2, step));
    return 0;
}
