/* The parts of the test of masks; each runs several named tests.
   Assumes that options_begin was called before. */

#ifndef MASKS_PARTS_H
#define MASKS_PARTS_H

#include <stdint.h>

void masks_grid(void);
void masks_moved(void);
void masks_constants(void);
void masks_feedback(void);
void masks_chains(void);
void masks_rings(void);
void masks_loops(void);
void masks_least(void);
void masks_columns(void);
void masks_drawn(uint64_t seed);

#endif
