/* The parts of the test of start and cycle; each runs several named tests.
   Assumes that options_begin was called before. */

#ifndef CLOCK_PARTS_H
#define CLOCK_PARTS_H

#include "../harness/lend.h"
#include "../harness/operations.h"
#include "../harness/report.h"
#include "../harness/trial.h"
#include "../harness/words.h"

void clock_examples(void);
void clock_kinds(void);
void clock_grid(void);
void clock_signed(uint64_t seed);
void clock_runs(uint64_t seed);

/* Notes what an accepted cycle of a design met, and judges at the end whether
   it was enough. */
void clock_note_cycle(const struct netlist *net, const struct lent *before,
                      const struct lent *after);
void clock_coverage(void);

#endif
