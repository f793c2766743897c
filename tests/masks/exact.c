/* Compares what a record asks for with what changes its results in a cycle.
   Assumes that cycles are judged elsewhere; here they are taken as right. */

#include "exact.h"

#include "../harness/known.h"
#include "../harness/lend.h"
#include "../harness/operations.h"
#include "../harness/trial.h"
#include "../harness/words.h"

enum { MANY = 1 << MOST_WIDTH };

/* What the library's cycle makes of each word. */
static void work_out(const struct netlist *net, uint64_t *results)
{
    uint32_t reader = net->count - 2;
    unsigned width = net->records[SOURCE].width;
    struct rng rng = rng_for(20, width);
    struct lent lent = lend(&cycle_operation, &rng, net);
    uint64_t word;

    for (word = 0; word <= width_mask(width); word++) {
        words_of(&lent, BOARD)[SOURCE] = word;
        expect_call(&cycle_operation, &lent, 0);
        results[word] = words_of(&lent, BOARD)[reader];
    }
}

/* The bits of the result that differ for some two words which differ in this
   bit alone. */
static uint64_t changed_by(const uint64_t *results, unsigned width,
                           unsigned bit)
{
    uint64_t word, changed = 0;

    for (word = 0; word <= width_mask(width); word++)
        changed |= results[word] ^ results[word ^ (uint64_t)1 << bit];
    return changed;
}

void try_every_demand(struct netlist *net)
{
    uint64_t results[MANY], changed[MOST_WIDTH], masks[4];
    uint32_t i, reader = net->count - 2;
    unsigned bit, width = net->records[SOURCE].width;
    uint64_t d, full = width_mask(width);

    work_out(net, results);
    for (bit = 0; bit < width; bit++)
        changed[bit] = changed_by(results, width, bit);
    for (d = 0; d <= full; d++) {
        masks[SOURCE] = 0;
        for (bit = 0; bit < width; bit++)
            if ((changed[bit] & d) != 0)
                masks[SOURCE] |= (uint64_t)1 << bit;
        for (i = SOURCE + 1; i < reader; i++)
            masks[i] = d;
        masks[reader] = masks[reader + 1] = full;
        net->records[reader].keep = d;
        expect_masks(&masks_operation, net, masks);
    }
}
