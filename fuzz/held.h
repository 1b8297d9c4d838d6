/* What both fuzzers do with a question: the library must answer it as the second
 * implementation does. */
#ifndef FUZZ_HELD_H
#define FUZZ_HELD_H

#include <stdint.h>

#include "support/question.h"

/* Changes an input of this size in one of libFuzzer's own ways; its new size. */
size_t LLVMFuzzerMutate(uint8_t *bytes, size_t size, size_t most);

/* What libFuzzer calls: with one input to try, and to change one. */
int LLVMFuzzerTestOneInput(const uint8_t *bytes, size_t size);
size_t LLVMFuzzerCustomMutator(uint8_t *bytes, size_t size, size_t most, unsigned seed);

/* Asks both; prints the question and stops the program where they differ. */
struct outcome held(const struct question *q);

/* Stops the program, with this as its last word, where something does not hold. */
void must_hold(int holds, const char *what);

#endif
