/* How much stack something uses. */
#ifndef SUPPORT_STACK_H
#define SUPPORT_STACK_H

#include <stddef.h>

/* Runs it on a painted stack of its own, and counts the bytes whose paint is gone. */
size_t stack_used(void (*run)(void));

#endif
