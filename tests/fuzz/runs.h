/* A run of a design and one of the trimmed file, compared call by call.
   Assumes that every operation has been tried on the file. */

#ifndef RUNS_H
#define RUNS_H

#include "each.h"

/* Makes the calls that the input chooses. A file that is refused is handed to
   start and cycle all the same. */
void try_runs(const struct subject *subject);

#endif
