#include "held.h"

#include <stdlib.h>

struct outcome held(const struct question *q)
{
    struct outcome o = question_ask(q);
    if (!outcome_is_right(&o)) {
        question_print(stderr, q, &o);
        abort();
    }
    return o;
}

void must_hold(int holds, const char *what)
{
    if (!holds) {
        fprintf(stderr, "  this does not hold: %s\n", what);
        abort();
    }
}
