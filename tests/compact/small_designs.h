/* Every design of up to four records of one bit, over six kinds.
   Assumes one that goes through them at a time. */

#ifndef COMPACT_SMALL_DESIGNS_H
#define COMPACT_SMALL_DESIGNS_H

#include "../harness/netlist.h"

enum { SMALL_MOST = 4 };

/* A named test, which calls it with the file of each that is accepted, prints
   how many there were, and fails if there were too few. */
void each_small_design(void (*attempt)(struct file *file));

#endif
