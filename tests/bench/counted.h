/* The one place where the benchmark makes a call that is to be counted.
   Assumes that callgrind is told to collect within `counted` alone. */

#ifndef COUNTED_H
#define COUNTED_H

#include "../harness/operation.h"

uint64_t counted(function *call, const struct lent *lent);

#endif
