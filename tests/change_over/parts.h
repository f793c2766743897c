/* The parts of the test of change over; each runs several named tests.
   Assumes that options_begin was called before. */

#ifndef CHANGE_OVER_PARTS_H
#define CHANGE_OVER_PARTS_H

#include <stdint.h>

void change_over_by_hand(void);
void change_over_refused(void);
void change_over_small(uint64_t seed);
void change_over_runs(uint64_t seed);

#endif
