/* Lists that are accepted though they are not the smallest, and the smallest.
   Assumes that the rules by which lists are drawn here are the model's. */

#include <string.h>

#include "../../include/pcn.h"
#include "../harness/designs.h"
#include "../harness/facts.h"
#include "../harness/lists.h"
#include "../harness/report.h"
#include "../harness/styles.h"
#include "../harness/trial.h"
#include "../model/care.h"
#include "by_list.h"
#include "parts.h"

enum {
    FIRST = 12000000, /* apart from the numbers of other tests */
    DESIGNS = 2700,
    OUTPUTS = 3,
    ANY_ONE_IN = 3
};

static struct netlist net;
static struct file file;
static uint64_t smallest[COUNT_LIMIT], list[COUNT_LIMIT], other[COUNT_LIMIT];

/* What was met with the lists at hand. */
static struct facts facts;

static void note_list(void)
{
    uint64_t more = 0, cut = 0, less = 0;
    uint32_t i;

    for (i = 0; i < net.count; i++) {
        more |= list[i] & ~smallest[i];
        cut |= net.records[i].keep & ~list[i];
        less |= net.records[i].keep & list[i] & ~smallest[i];
    }
    facts.many = 0;
    fact(&facts, "the list has a bit more than the smallest masks", more != 0);
    fact(&facts, "a keep word is cut", cut != 0);
    fact(&facts, "a bit is kept that the smallest masks would clear",
         less != 0);
    fact(&facts, "more, and some keep word is cut", more != 0 && cut != 0);
}

static void find_smallest(void)
{
    netlist_write(&net, &file);
    demand_answer(pcn_masks(file.bytes, file.length, (uint8_t *)smallest,
                            8 * (size_t)net.count) >> 63, 0);
}

/* The list is accepted, and this is the file written. */
static void expect_file(const uint8_t *right)
{
    struct known known = expect_accepted(&net, list);

    if (memcmp(known.lent.of[2].bytes, right, file.length) != 0)
        test_fail();
}

/* With the smallest masks the file is the one of pcn_trim. */
static void try_smallest(struct rng *rng)
{
    static uint8_t trimmed[8 + 24 * COUNT_LIMIT];

    (void)rng;
    demand_answer(pcn_trim(file.bytes, file.length, (uint8_t *)list,
                           8 * (size_t)net.count, trimmed, file.length) >> 63,
                  0);
    expect_file(trimmed);
}

/* The smallest masks of the same design with some outputs more, of which the
   design itself has no records. */
static void try_more_outputs(struct rng *rng)
{
    static struct netlist more;
    static uint64_t masks[COUNT_LIMIT];
    uint32_t i;

    more = net;
    for (i = 0; net.count > 0 && i < OUTPUTS; i++) {
        uint32_t a = rng_below(rng, net.count);

        if (net.records[a].kind != KIND_OUTPUT && more.count < COUNT_LIMIT)
            netlist_output(&more, a,
                           design_word(rng, net.records[a].width));
    }
    netlist_write(&more, &file);
    demand_answer(pcn_masks(file.bytes, file.length, (uint8_t *)masks,
                            8 * (size_t)more.count) >> 63, 0);
    memcpy(list, masks, 8 * (size_t)net.count);
    expect_accepted(&net, list);
}

static void try_all_bits(struct rng *rng)
{
    uint32_t i;

    (void)rng;
    for (i = 0; i < net.count; i++)
        list[i] = width_mask(net.records[i].width);
    expect_file(file.bytes);
}

/* Any bits, and then all that the model finds called for. */
static void draw_closed(struct rng *rng, uint64_t *drawn)
{
    static uint64_t called[COUNT_LIMIT];
    uint64_t lacking;
    uint32_t i;

    for (i = 0; i < net.count; i++)
        drawn[i] = rng_once_in(rng, ANY_ONE_IN)
            ? design_word(rng, net.records[i].width) : 0;
    do {
        lacking = 0;
        model_called_for(file.bytes, net.count, drawn, called);
        for (i = 0; i < net.count; i++) {
            lacking |= called[i] & ~drawn[i];
            drawn[i] |= called[i];
        }
    } while (lacking != 0);
}

static void try_closed(struct rng *rng)
{
    draw_closed(rng, list);
    expect_accepted(&net, list);
}

/* What two accepted lists have in common is accepted, and so are both
   together: of any two bits, each asks by itself. */
static void try_joined(struct rng *rng)
{
    uint32_t i;

    draw_list(rng, file.bytes, list, MORE_BITS);
    draw_closed(rng, other);
    for (i = 0; i < net.count; i++) {
        uint64_t one = list[i];

        list[i] &= other[i];
        other[i] |= one;
    }
    expect_accepted(&net, other);
    expect_accepted(&net, list);
}

/* A sort of list, and the name of its facts if it is to be wider than the
   smallest masks. */
static const struct {
    const char *name, *facts;
    void (*attempt)(struct rng *rng);
} sorts[] = {
    { "by list: the smallest masks give the file of pcn_trim", NULL,
      try_smallest },
    { "by list: the smallest masks of a design with more outputs",
      "by list: facts of more outputs", try_more_outputs },
    { "by list: all bits of every record leave the file as it is", NULL,
      try_all_bits },
    { "by list: any bits and all that they call for",
      "by list: facts of any bits", try_closed },
    { "by list: two lists joined, and what they have in common",
      "by list: facts of what two have in common", try_joined }
};

/* Designs of all styles, most of them short. */
void trim_by_wider(uint64_t seed)
{
    unsigned long i;
    unsigned j;

    for (j = 0; j < sizeof sorts / sizeof *sorts; j++) {
        memset(&facts, 0, sizeof facts);
        test_begin(sorts[j].name);
        for (i = 0; i < DESIGNS; i++) {
            struct rng rng = rng_for(seed, FIRST + DESIGNS * j + i);

            design_by_turn(&rng, &net, design_count(&rng, 0) % 600, i);
            find_smallest();
            sorts[j].attempt(&rng);
            note_list();
        }
        test_end();
        if (sorts[j].facts != NULL)
            judge_facts(sorts[j].facts, &facts);
    }
}
