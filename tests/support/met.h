/*
 * What a test program has met: its inputs, the answers that were not the ones
 * wanted, and how often each code was wanted.
 */
#ifndef SUPPORT_MET_H
#define SUPPORT_MET_H

#include <stddef.h>
#include <stdint.h>

#include "support/lender.h"

/* So often at least must each code of a call be met. */
enum { LEAST_MET = 100 };

struct met {
    uint32_t inputs, unequal, code[256];
};

extern struct met met;

/* The number that a call gives back for this code and value. */
uint64_t packed(uint32_t code, uint64_t value);

/* Where to lend the next input's buffers: each place in its turn. */
enum lend_at met_turn(void);

/* Counts one input: was the answer the one wanted, and is every buffer as it
 * must be? The first few inputs where not are printed, as the text says it. */
int met_answer(uint64_t wanted, uint64_t given, int buffers_right, const char *text, ...);

/* The inputs between a begin and an end are one group, reported by its name:
 * there was one at least, and all answers were right. */
void met_begin_group(void);
void met_end_group(const char *name);

/* Runs one group and reports it. */
void met_group(const char *name, void (*run)(void));

/* Reports whether this was met often enough. */
void met_often(const char *what, uint32_t number, uint32_t times);

/* Reports each of these codes, and that the inputs were this many at least. */
void met_report(const uint32_t *codes, size_t count, uint32_t least_inputs);

#endif
