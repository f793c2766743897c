/* Random valid designs of all styles, a first run and four second ones.
   Assumes that design number i depends only on the seed and on i. */

#include "../harness/designs.h"
#include "../harness/lists.h"
#include "../harness/report.h"
#include "../harness/styles.h"
#include "pair.h"
#include "parts.h"

enum { FIRST = 8000000 /* apart from the numbers of other tests */ };

/* Designs of each style in turn, words cut with constants, or chains, each
   with a register more than the last. */
enum design { BY_TURN, CUT_WORDS, CHAINS };

/* Counts from the least to the most, or any; calls by the count, or so many;
   trimmed to the smallest masks or by a list, mostly with more bits. */
static const struct batch {
    const char *name;
    uint32_t designs, least, most;
    unsigned calls;
    enum design design;
    int by_list;
} batches[] = {
    { "generated: pairs: designs of all sizes", 6750, 0, 0, 0, BY_TURN, 0 },
    { "generated: pairs: designs with 0 to 6 records", 1400, 0, 6, 0,
      BY_TURN, 0 },
    { "generated: pairs: designs with 2,048 records", 42, 2048, 2048, 0,
      BY_TURN, 0 },
    { "generated: pairs: 1,000 calls, most of them cycles", 42, 5, 60, 1000,
      BY_TURN, 0 },
    { "generated: pairs: words cut with constants", 3000, 4, 80, 0,
      CUT_WORDS, 0 },
    { "generated: pairs: chains of 1 to 80 registers, run through", 80, 0, 0,
      0, CHAINS, 0 },
    { "generated: pairs by lists: designs with 1 to 100 records", 7200, 1, 100,
      0, BY_TURN, 1 },
    { "generated: pairs by lists: designs with 2,048 records", 9, 2048, 2048,
      0, BY_TURN, 1 },
    { "generated: pairs by lists: words cut with constants", 4500, 4, 80, 0,
      CUT_WORDS, 1 },
    { "generated: pairs by lists: chains of 1 to 40 registers, run through",
      40, 0, 0, 0, CHAINS, 1 }
};

static struct masked masked;

/* Any count has fewer of the longest, whose runs take so long. */
static uint32_t count_for(struct rng *rng, const struct batch *batch)
{
    uint32_t count = design_count(rng, 0);

    if (batch->most > 0)
        return rng_between(rng, batch->least, batch->most);
    return count <= 600 || rng_once_in(rng, 4) ? count : count % 600;
}

/* Fewer calls for longer designs, but enough to run through a chain. */
static unsigned calls_for(struct rng *rng, const struct batch *batch)
{
    uint32_t count = masked.net.count;

    if (batch->calls > 0)
        return batch->calls;
    if (batch->design == CHAINS)
        return 2 * count + 6;
    if (count <= 100)
        return rng_between(rng, 3, count <= 12 ? 30 : 16);
    return count <= 600 ? 6 : 4;
}

/* Registers in a row, each of which reads the next one, an input at the end
   and an output of the first. A few of them do not keep all their bits. */
static void make_chain(struct rng *rng, uint32_t registers)
{
    struct netlist *net = &masked.net;
    uint8_t width = (uint8_t)rng_between(rng, 1, 64);

    netlist_clear(net);
    while (net->count < registers) {
        uint32_t number = net->count;

        netlist_add(net, KIND_REGISTER, width, number + 1, 0, 0,
                    design_word(rng, width));
        if (rng_once_in(rng, 16))
            net->records[number].keep = design_word(rng, width);
    }
    netlist_input(net, width);
    netlist_output(net, 0, design_word(rng, width));
}

/* Design i of the batch. */
static void make_design(struct rng *rng, const struct batch *batch, uint32_t i)
{
    if (batch->design == CHAINS)
        make_chain(rng, i + 1);
    else
        design_by_turn(rng, &masked.net, count_for(rng, batch),
                       batch->design == CUT_WORDS ? STYLE_CUT : i);
}

static void trim_design(struct rng *rng, const struct batch *batch)
{
    if (!batch->by_list) {
        trim_netlist(&masked);
        return;
    }
    netlist_write(&masked.net, &masked.file);
    draw_list(rng, masked.file.bytes, masked.masks,
              (enum list_sort)rng_below(rng, ALL_BITS));
    trim_netlist_by_list(&masked);
}

void runs_pairs(uint64_t seed)
{
    unsigned long made = FIRST;
    uint32_t i, j;

    for (j = 0; j < sizeof batches / sizeof *batches; j++) {
        test_begin(batches[j].name);
        for (i = 0; i < batches[j].designs; i++) {
            struct rng rng = rng_for(seed, made++);

            make_design(&rng, &batches[j], i);
            trim_design(&rng, &batches[j]);
            try_pairs(&masked, &rng, calls_for(&rng, &batches[j]));
        }
        test_end();
    }
    runs_coverage();
}
