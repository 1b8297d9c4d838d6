#define _XOPEN_SOURCE 600
#include "support/stack.h"

#include <string.h>
#include <ucontext.h>

enum { STACK = 1 << 20, PAINT = 0xA5 };

static unsigned char stack[STACK];
static ucontext_t here, there;

size_t stack_used(void (*run)(void))
{
    size_t clean = 0;
    memset(stack, PAINT, sizeof stack);
    getcontext(&there);
    there.uc_stack.ss_sp = stack;
    there.uc_stack.ss_size = sizeof stack;
    there.uc_link = &here;
    makecontext(&there, run, 0);
    swapcontext(&here, &there);
    while (clean < sizeof stack && stack[clean] == PAINT)
        clean++;
    return sizeof stack - clean;
}
