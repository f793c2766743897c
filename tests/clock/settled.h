/* Looks whether the lists that a start or a cycle left follow from the file.
   Assumes an accepted call; no model is asked. */

#ifndef SETTLED_H
#define SETTLED_H

#include "../harness/operation.h"

/* The result of a record's kind in a cycle, before its keep word clears bits,
   worked out from the values of its operands. */
uint64_t settled_result(const struct lent *before, const struct lent *after,
                        uint32_t number);

/* What is wrong with the answer or the lists, or null. */
const char *judge_start(const struct lent *before, const struct lent *after,
                        uint64_t answer);
const char *judge_cycle(const struct lent *before, const struct lent *after,
                        uint64_t answer);

#endif
