/* Which records survive when a file is compacted, for the judges.
   Assumes an accepted file and its masks. */

#ifndef COMPACT_SURVIVORS_H
#define COMPACT_SURVIVORS_H

#include <stdint.h>

/* Whether a record, if it survives, is a constant in the new file. */
int is_emptied(const uint8_t *file, const uint64_t *masks, uint32_t number);

/* Writes the numbers of the survivors, in order, and gives how many there
   are. */
uint32_t find_survivors(const uint8_t *file, const uint64_t *masks,
                        uint32_t *numbers);

#endif
