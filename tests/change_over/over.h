/* A run of a file, changed over to its compacted file while it goes on.
   Assumes runs that beside_begin has begun. */

#ifndef CHANGE_OVER_OVER_H
#define CHANGE_OVER_OVER_H

#include "../compact/beside.h"

/* How many calls the old file gets alone, how many both get afterwards, and
   how often these are starts, or come after refused ones. */
struct course {
    unsigned alone, together;
    struct chances chances;
};

/* What was lent for the change over: the mask list as it is afterwards, with
   room for a word too many, and the board list. */
struct over {
    uint64_t masks[COUNT_LIMIT + 1];
    uint64_t board[COUNT_LIMIT];
};

/* The old file runs from any states, or from a start, and is then changed
   over. From there both run with equal pins, and the outputs must be equal in
   each cycle. What is wrong, or null. */
const char *run_over(struct beside *beside, const struct course *course,
                     struct over *over, struct rng *rng);

#endif
