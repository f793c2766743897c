/* The test program for start and cycle: examples, kinds, ranges, runs.
   Assumes the arguments that options.c reads. */

#include <stdio.h>

#include "../harness/options.h"
#include "../harness/range.h"
#include "parts.h"

enum { WIDE_WORDS = 3000000 };

int main(int argc, char **argv)
{
    uint64_t seed = options_begin(argc, argv);

    clock_examples();
    clock_kinds();
    clock_grid();
    clock_signed(seed);
    try_range(&cycle_operation, BOARD, seed, WIDE_WORDS);
    clock_runs(seed);
    clock_coverage();
    printf("%lu calls tried\n", trials_made());
    return tests_end() ? 0 : 1;
}
