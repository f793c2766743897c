/* Sets the bits outside a mask to anything, within the width.
   Assumes that any bits are most telling where they are the other ones. */

#include "scramble.h"

#include "../harness/designs.h"

uint64_t alike(struct rng *rng, uint64_t word, uint64_t mask, unsigned width)
{
    uint64_t others[4] = { ~word, 0, 0, 0 };

    others[1] = design_word(rng, width);
    others[2] = others[3] = rng_word(rng);
    return (word & mask)
         | (others[rng_below(rng, 4)] & ~mask & width_mask(width));
}

uint64_t scramble(void *context, uint32_t number, uint64_t value)
{
    struct scrambler *scrambler = context;
    const struct record *record = &scrambler->net->records[number];
    uint64_t changed = alike(&scrambler->rng, value,
                             scrambler->masks[number], record->width);

    scrambler->changed[record->kind] += changed != value;
    return changed;
}
