/* Tries compacting: examples by hand, all small designs, and runs beside it.
   Assumes that single calls of all sorts are tried by tests/harness. */

#include <stdio.h>

#include "../harness/known.h"
#include "../harness/operations.h"
#include "../harness/options.h"
#include "../harness/report.h"
#include "../harness/trial.h"
#include "parts.h"

int main(int argc, char **argv)
{
    uint64_t seed = options_begin(argc, argv);

    try_examples(&compact_operation, expect_masks);
    compact_by_hand();
    compact_refused();
    compact_small(seed);
    compact_runs(seed);
    printf("%lu files tried\n", trials_made());
    return tests_end() ? 0 : 1;
}
