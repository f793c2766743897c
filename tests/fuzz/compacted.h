/* The compacted file of an input, run beside its file and changed over to.
   Assumes that try_each has filled in what became of the file. */

#ifndef FUZZ_COMPACTED_H
#define FUZZ_COMPACTED_H

#include "each.h"

/* Tries what is said of the two; a refused file is passed by. */
void try_compacted(const struct subject *subject);

#endif
