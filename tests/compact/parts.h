/* The parts of the test of compacting; each runs several named tests.
   Assumes that options_begin was called before. */

#ifndef COMPACT_PARTS_H
#define COMPACT_PARTS_H

#include <stdint.h>

void compact_by_hand(void);
void compact_refused(void);
void compact_small(uint64_t seed);
void compact_runs(uint64_t seed);

#endif
