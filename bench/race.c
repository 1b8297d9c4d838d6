#define _POSIX_C_SOURCE 199309L
#include "race.h"

#include <stdlib.h>
#include <time.h>

enum { TURNS = 201 };

static const double TURN_NANOSECONDS = 100000;

/* Where the answers go, so that no run can be left out. */
static volatile uint64_t sink;

static double now(void)
{
    struct timespec t;
    clock_gettime(CLOCK_MONOTONIC, &t);
    return (double)t.tv_sec * 1e9 + (double)t.tv_nsec;
}

static double time_of(rival *run, const void *input, size_t repeats)
{
    double start = now();
    for (size_t i = 0; i < repeats; i++)
        sink += run(input);
    return (now() - start) / (double)repeats;
}

/* How often a rival must run to fill a turn. */
static size_t repeats_for(rival *run, const void *input)
{
    double once = time_of(run, input, 3);
    return once >= TURN_NANOSECONDS ? 1 : (size_t)(TURN_NANOSECONDS / (once + 1)) + 1;
}

static int by_size(const void *a, const void *b)
{
    double x = *(const double *)a, y = *(const double *)b;
    return (x > y) - (x < y);
}

static double median(double *numbers)
{
    qsort(numbers, TURNS, sizeof *numbers, by_size);
    return numbers[TURNS / 2];
}

struct times race(const void *input, rival *const *rivals, size_t count)
{
    static double taken[MOST_RIVALS][TURNS], first_to[MOST_RIVALS][TURNS];
    struct times t = {{0}, {0}};
    size_t repeats[MOST_RIVALS];
    for (size_t r = 0; r < count; r++)
        repeats[r] = repeats_for(rivals[r], input);
    for (size_t turn = 0; turn < TURNS; turn++)
        for (size_t r = 0; r < count; r++) {
            taken[r][turn] = time_of(rivals[r], input, repeats[r]);
            first_to[r][turn] = taken[0][turn] / taken[r][turn];
        }
    for (size_t r = 0; r < count; r++) {
        t.taken[r] = median(taken[r]);
        t.first_to[r] = median(first_to[r]);
    }
    return t;
}
