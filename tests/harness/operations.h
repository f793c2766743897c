/* The operations that C can call.
   Assumes that each is described here and nowhere else. */

#ifndef OPERATIONS_H
#define OPERATIONS_H

#include "operation.h"

extern const struct operation check_operation, masks_operation,
    trim_operation, trim_by_operation, compact_operation, start_operation,
    cycle_operation, change_over_operation;

/* All of them. */
enum { OPERATIONS = 8 };

extern const struct operation *const operations[OPERATIONS];

/* Judges of a file and a mask list, and of these and a destination. */
judgement judge_masks, judge_trim, judge_trim_by, judge_compact;

/* The judge of a file, a mask list, a board list and a new list. */
judgement judge_change_over;

/* The judge of a list that is refused. */
judgement judge_list;

#endif
