/* Tries change over: examples by hand, all small designs, and runs beside it.
   Assumes that single calls of all sorts are tried by tests/harness. */

#include <stdio.h>

#include "../harness/known.h"
#include "../harness/operations.h"
#include "../harness/options.h"
#include "../harness/range.h"
#include "../harness/report.h"
#include "../harness/trial.h"
#include "../harness/words.h"
#include "parts.h"

enum { WIDE_WORDS = 18000000 };

int main(int argc, char **argv)
{
    uint64_t seed = options_begin(argc, argv);

    try_examples(&change_over_operation, expect_masks);
    change_over_by_hand();
    change_over_refused();
    try_range(&change_over_operation, OLD_BOARD, seed, WIDE_WORDS);
    change_over_small(seed);
    change_over_runs(seed);
    printf("%lu calls tried\n", trials_made());
    return tests_end() ? 0 : 1;
}
