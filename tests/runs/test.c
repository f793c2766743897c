/* The test program for pairs of runs: examples, the claim, changed bits.
   Assumes the arguments that options.c reads. */

#include "../harness/options.h"
#include "../harness/report.h"
#include "parts.h"

int main(int argc, char **argv)
{
    uint64_t seed = options_begin(argc, argv);

    runs_examples();
    runs_pairs(seed);
    runs_seen(seed);
    return tests_end() ? 0 : 1;
}
