/* One call of an operation, compared with the model by the harness.
   Assumes that a difference ends the process, and libFuzzer saves the input. */

#ifndef COMPARE_H
#define COMPARE_H

#include "../harness/guard.h"

/* Tries the call as try_call of the harness does, the second time with the
   memory placed as told. The memory lent then holds what the library left
   there, and its answer is given. */
uint64_t compared(const struct operation *operation, const struct lent *lent,
                  const struct placing *front);

#endif
