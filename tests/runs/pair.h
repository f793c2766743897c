/* A first run of a design beside the four second runs of 01.
   Assumes that a named test has begun, which notes where the claim fails. */

#ifndef RUNS_PAIR_H
#define RUNS_PAIR_H

#include "calls.h"

/* Makes the five runs with so many accepted calls each, and refused ones in
   between, at other places in each run. After each cycle the values must be
   equal at each output, and in the cared bits of each signal; plain values of
   the trimmed file have no other bits. */
void try_pairs(struct masked *masked, struct rng *rng, unsigned calls);

/* What the cycles of a pair met, each a bit. */
enum {
    VALUE_DIFFERED = 1,      /* in a bit outside its mask */
    INPUT_DIFFERED = 2,      /* a word put at an input */
    STATE_OUTSIDE_MASK = 4,  /* a register's word differed outside its mask */
    STATE_CUT = 8,           /* in a bit of it that the keep word clears */
    OUTPUT_NOT_ZERO = 16,
    START_IN_MID_RUN = 32,
    MANY_CYCLES = 64,        /* more on end than there are registers, and any */
    SELECTOR_DIFFERED = 128, /* that of a mux */
    CUT_BITS_DIFFERED = 256, /* those that an and or an or with a constant
                                does away with, though they are in its D */
    MET_BITS = 9,
    CONSTANT_DIFFERED = 512, /* beside such bits; only where a value may be
                                another than the file's */
    MORE_NOT_ZERO = 1024     /* a bit that only a wider list cares for */
};

/* Notes a pair that has ended, and judges at the end whether the pairs met
   enough. */
void runs_note_pair(const struct masked *masked, unsigned sort,
                    const struct run *first, const struct run *second,
                    unsigned met);
void runs_coverage(void);

#endif
