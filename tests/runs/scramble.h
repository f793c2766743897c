/* The scrambling of 01: bits outside the masks are set to anything.
   Assumes masks within the widths, those of the design. */

#ifndef SCRAMBLE_H
#define SCRAMBLE_H

#include "../harness/netlist.h"
#include "../harness/rng.h"
#include "../model/model.h"

/* What a scrambled run needs, and how often it changed a value of each
   kind. */
struct scrambler {
    const struct netlist *net;
    const uint64_t *masks;
    struct rng rng;
    unsigned long changed[KIND_COUNT];
};

/* The change of a run whose context is a scrambler. */
model_change scramble;

/* A word with the cared bits of this one, the others within the width being
   anything. */
uint64_t alike(struct rng *rng, uint64_t word, uint64_t mask, unsigned width);

#endif
