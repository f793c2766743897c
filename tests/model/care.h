/* What the model's masks and its trimming by a list have in common.
   Assumes an accepted file, and lists with a word for each of its records. */

#ifndef MODEL_CARE_H
#define MODEL_CARE_H

#include <stdint.h>

/* What the care rules call for at each record when these are the masks: all
   bits of an output, and what any record asks with its D. */
void model_called_for(const uint8_t *file, uint32_t count,
                      const uint64_t *masks, uint64_t *called);

/* 2^32 times the sum of all widths, and the count of ones over these masks. */
uint64_t model_tally(const uint8_t *file, uint32_t count,
                     const uint64_t *masks);

#endif
