/* What every operation is put through that takes a board list as a cycle does.
   Assumes that `prepare` makes such a list accepted. */

#ifndef RANGE_H
#define RANGE_H

#include "operation.h"

/* Named tests of refusal 12; `board` is the board list's parameter. The first
   random design has this number. */
void try_range(const struct operation *operation, unsigned board,
               uint64_t seed, unsigned long first);

#endif
