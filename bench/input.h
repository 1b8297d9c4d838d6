/*
 * What one line is timed on: questions to one call about sheets of one kind and
 * level. A call over whole sheets is asked once about each of many sheets; one
 * that searches is asked about one node of each, or about several.
 */
#ifndef BENCH_INPUT_H
#define BENCH_INPUT_H

#include <stddef.h>
#include <stdint.h>

#include "sheet.h"
#include "support/picture.h"
#include "support/question.h"

/* Every line has about as many nodes, however small its sheets, so that what the
 * machine keeps of them from one turn to the next is the same; where that would
 * be too many pixels, so many. There are so many that a processor does not learn
 * which way each test goes: with a fourth of them it learns small sheets by heart
 * and large ones in part, though to a caller each sheet is new. */
enum { LEAST_NODES = 20000, MOST_NODES = SHEET_LONGEST_TABLE / SHEET_NODE_WORDS, ENOUGH_PIXELS = 32 * 128 * 128 };

/* A line has so many questions about nodes at least. */
enum { LEAST_QUESTIONS = 16, MOST_QUESTIONS = LEAST_NODES / 5 + LEAST_QUESTIONS };

struct input {
    size_t questions, nodes, pixels; /* those of a sheet each time that it is asked about */
    struct question question[MOST_QUESTIONS];
    uint32_t contents[(LEAST_NODES + MOST_NODES) * SHEET_NODE_WORDS]; /* of all sheets: tables, rasters or files */
};

/* Is this a call that asks about a node? */
int call_searches(enum call call);

/* Draws an input. Sheets of one leaf are left out; tables are in preorder, or
 * numbered at random. */
void input_draw(struct input *in, enum call call, enum picture_kind kind, uint32_t level, int at_random);

#endif
