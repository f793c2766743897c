/* The smallest family of masks of a design, found by trying all families.
   Assumes inputs, constants, registers, ands, ors and outputs of one width,
   and so few bits in all that every family can be tried. */

#ifndef MASKS_SMALLEST_H
#define MASKS_SMALLEST_H

#include "../harness/netlist.h"

/* The most records of a design. */
enum { MOST_RECORDS = 5 };

/* What all families have in common that meet the care rules; the test fails if
   it does not meet them itself. A family is one number, in which record 0 has
   the lowest bits. */
uint64_t smallest_family(const struct netlist *net);

#endif
