/* Measures how much stack a valuation takes. */
#ifndef STACK_H
#define STACK_H

#include "filings.h"
#include "versions.h"

/* Bytes of stack that one call of `function` on `f` takes. */
size_t stack_of(value_function *function, struct input f);

#endif
