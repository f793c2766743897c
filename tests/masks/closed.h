/* The care rules of 01 for any list of masks, one bit of D at a time.
   Assumes an accepted file, and a list with a word for each of its records. */

#ifndef MASKS_CLOSED_H
#define MASKS_CLOSED_H

#include <stdint.h>

/* The lowest record whose mask lacks a bit that the rules call for under this
   list, or has one outside its width; the count if there is none. */
uint32_t lowest_fault(const uint8_t *file, const uint64_t *list);

/* Adds what the rules call for, until they call for nothing more. */
void close_list(const uint8_t *file, uint64_t *list);

/* What is wrong with the list unless it has the least masks, or null. */
const char *least_fault(const uint8_t *file, const uint64_t *list);

/* The sum of all widths, in the high half, and the count of ones. */
uint64_t tally_of(const uint8_t *file, const uint64_t *list);

#endif
