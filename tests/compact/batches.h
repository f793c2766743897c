/* Batches of random designs of all styles, each beside its compacted file.
   Assumes that design number i depends only on the seed and on i. */

#ifndef COMPACT_BATCHES_H
#define COMPACT_BATCHES_H

#include "beside.h"

/* A named test: how many designs, with counts from the least to the most, and
   the cycles of each. */
struct batch {
    const char *name;
    uint32_t designs, least, most;
    unsigned cycles;
    struct chances chances;
};

/* A design and its compacted file, with any words in their board lists. */
struct design {
    struct file file, made;
    uint64_t masks[COUNT_LIMIT];
    struct beside beside;
};

/* What is wrong with the runs of a design, or null; and then what they have
   met, also where something was wrong. */
typedef const char *design_run(const struct batch *batch,
                               struct design *design, struct rng *rng);
typedef void design_note(const struct design *design);

/* The first design has this number. */
void run_batches(const struct batch *batches, size_t many, uint64_t seed,
                 unsigned long number, design_run *run, design_note *note);

/* How many records of a file are of this kind. */
uint32_t many_of(const struct file *counted, uint8_t kind);

#endif
