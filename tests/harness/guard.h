/* Copies of what is lent for a call, with forbidden pages on both sides.
   Assumes Linux; one call at a time in one thread. */

#ifndef GUARD_H
#define GUARD_H

#include "operation.h"

/* Where the copies lie: so far before forbidden memory begins, or so far
   behind the place where it ends. How far is counted in bytes, and in words
   for a list of words. */
enum edge { AT_END, AT_FRONT };

struct placing {
    enum edge edge;
    size_t away[PARAMETERS];
};

/* Calls the library's function on such copies, those of files and of lists
   that are read being read-only, and copies back what is written. False when
   the call stepped outside or wrote to what it may only read. The address
   sanitizer cannot see this in a library built without it. */
int guarded_call(const struct operation *operation, const struct lent *lent,
                 const struct placing *placing, uint64_t *answer);

/* Memory of this length, far above that there is, of which only the front is
   ever touched; it is the same one at every call. */
uint8_t *huge_memory(size_t length);

#endif
