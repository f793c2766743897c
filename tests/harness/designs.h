/* Random valid netlists over all kinds and widths, in several styles.
   Assumes that the rules of 01 are kept by construction, not by checking. */

#ifndef DESIGNS_H
#define DESIGNS_H

#include <stdint.h>

#include "netlist.h"
#include "rng.h"

enum keep_style {
    KEEP_FULL,   /* every bit of every signal is kept */
    KEEP_MIXED,  /* none, all, a single bit or random bits */
    KEEP_MOSTLY, /* three in four are full, the rest mixed */
    KEEP_HOLES,  /* full but for a bit or two */
    KEEP_ANY     /* one of these, drawn for each design */
};

/* How the records of a design are drawn. */
struct style {
    uint8_t share[KIND_COUNT]; /* the chances of each kind */
    uint8_t opening; /* 64ths of the records, inputs at the front */
    uint8_t closing; /* 64ths of the records, outputs at the end, rounded up */
    uint32_t recent; /* operands among the last so many; 0 for any */
    enum keep_style keep;
    int cut; /* few widths, and most ands and ors read a constant */
};

/* A count of records from `least` to the limit; small ones are likelier. */
uint32_t design_count(struct rng *rng, uint32_t least);

/* Fills `net` with a valid netlist of exactly `count` records: of this
   style, or with all kinds alike. */
void design_styled(struct rng *rng, struct netlist *net, uint32_t count,
                   const struct style *style);
void design_make(struct rng *rng, struct netlist *net, uint32_t count);

/* A word within the width: random, or one of the values at the edges. */
uint64_t design_word(struct rng *rng, unsigned width);

#endif
