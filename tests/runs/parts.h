/* The parts of the test of pairs of runs; each runs several named tests.
   Assumes that the designs are made from the seed. */

#ifndef RUNS_PARTS_H
#define RUNS_PARTS_H

#include <stdint.h>

void runs_examples(void);
void runs_pairs(uint64_t seed);
void runs_seen(uint64_t seed);

#endif
