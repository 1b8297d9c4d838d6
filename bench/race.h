/* A race: several ways to the same answer, timed in turns on the same input. */
#ifndef BENCH_RACE_H
#define BENCH_RACE_H

#include <stddef.h>
#include <stdint.h>

enum { MOST_RIVALS = 6 };

typedef uint64_t rival(const void *input);

/* For each rival the nanoseconds that one run takes, and how many times that the
 * first one takes: medians over many turns, each of one turn, so that a machine
 * that becomes slower on the way does no harm. */
struct times {
    double taken[MOST_RIVALS], first_to[MOST_RIVALS];
};

/* Runs the rivals by turns. */
struct times race(const void *input, rival *const *rivals, size_t count);

#endif
