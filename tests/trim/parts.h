/* The parts of the test of trimming; each runs several named tests.
   Assumes that options_begin was called before. */

#ifndef TRIM_PARTS_H
#define TRIM_PARTS_H

#include <stdint.h>

void trim_ramp(void);
void trim_by_hand(void);
void trim_by_wider(uint64_t seed);
void trim_by_spoilt(uint64_t seed);
void trim_by_places(uint64_t seed);

#endif
