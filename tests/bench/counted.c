/* Passes a call on, so that callgrind knows by this name what to count.
   Assumes a translation unit of its own: inlined, it would have no name. */

#include "counted.h"

uint64_t counted(function *call, const struct lent *lent)
{
    return call(lent);
}
