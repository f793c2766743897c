/* Records that ask exactly for the bits which can change what is kept of them.
   Assumes widths at which all words and all D can be gone through. */

#ifndef MASKS_EXACT_H
#define MASKS_EXACT_H

#include "../harness/netlist.h"

/* The input, which is the first record, and the widest one that is allowed. */
enum { SOURCE, MOST_WIDTH = 8 };

/* Tries every D of a record that reads the input and constants between the
   two, all of one width; an output of all its bits is the last record. A bit
   of the input is cared for where it can change a bit of D, and nowhere else.
   The constants have D. */
void try_every_demand(struct netlist *net);

#endif
