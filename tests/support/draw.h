/* Questions of every kind to every call, drawn from dice: the same dice give the
 * same question, whatever was drawn before. */
#ifndef SUPPORT_DRAW_H
#define SUPPORT_DRAW_H

#include "support/dice.h"
#include "support/question.h"

/* Draws a question to this call: sheets of small levels far more often than of
 * large ones, tables and files sound and damaged, numbers in range and out of it,
 * slices of the right length, of others and empty. The question's contents stand
 * until the next one is drawn. */
void draw_question(struct question *q, enum call call, struct dice *d);

#endif
