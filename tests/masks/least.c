/* The masks of small designs of and and or beside the smallest family.
   Assumes that the smallest family was found by trying all. */

#include <inttypes.h>
#include <stdio.h>
#include <string.h>

#include "../../include/pcn.h"
#include "../harness/netlist.h"
#include "../harness/report.h"
#include "../harness/rng.h"
#include "parts.h"
#include "smallest.h"

enum { CHOICES = 32, SEED = 30 };

/* What is gone through. A design has sources, which are inputs, constants and
   registers, then ands and ors, at least one, and then an output; counts are
   of all records. Sources read nothing that has to stand before them, so in
   front they may stand as well as anywhere. Each kind and operand is chosen in
   every way. So is each word (keep words, and the k of a constant), or else
   words are drawn so many times, together with what the output reads. Without
   registers the output has the last record, whole: if it had another one, this
   would have no reader. */
static const struct batch {
    const char *name;
    unsigned width, least, most, registers, drawn;
} batches[] = {
    { "all families: width 1, 3 to 5 records, every word", 1, 3, 5, 1, 0 },
    { "all families: width 2, 3 or 4 records, every word", 2, 3, 4, 1, 0 },
    { "all families: width 2, 5 records but no register, every word", 2, 5, 5,
      0, 0 },
    { "all families: width 2, 5 records, words drawn", 2, 5, 5, 1, 8 },
    { "all families: width 3, 3 or 4 records, words drawn", 3, 3, 4, 1, 64 },
    { "all families: width 3, 5 records, words drawn", 3, 5, 5, 1, 1 }
};

static struct netlist net;
static const struct batch *batch;
static struct rng rng;
static unsigned width;
static uint64_t full;
static unsigned long tried, settled;

/* The choices made for the design at hand, each with how many there are. Those
   after the last one that is known begin at 0. */
static struct { uint64_t at, of; } choices[CHOICES];
static unsigned made, known;

static uint32_t choose(uint64_t many)
{
    if (made == known) {
        choices[known].at = 0;
        choices[known++].of = many;
    }
    return (uint32_t)choices[made++].at;
}

/* Counts the choices on by one, the last one fastest; false after the last
   design. */
static int choose_on(void)
{
    made = 0;
    while (known > 0 && ++choices[known - 1].at == choices[known - 1].of)
        known--;
    return known > 0;
}

static uint64_t choose_word(void)
{
    return batch->drawn > 0 ? rng_word(&rng) & full : choose(full + 1);
}

/* An input's keep word and a register's reset state are in no care rule. */
static void add_source(uint32_t readable)
{
    uint8_t kind = (uint8_t)choose(KIND_CONSTANT + 1 + batch->registers);
    uint32_t a = kind == KIND_REGISTER ? choose(readable) : 0;
    uint64_t k = kind == KIND_CONSTANT ? choose_word()
               : kind == KIND_REGISTER ? full : 0;
    uint32_t number = netlist_add(&net, kind, (uint8_t)width, a, 0, 0, k);

    if (kind != KIND_INPUT)
        net.records[number].keep = choose_word();
}

static void add_gate(void)
{
    uint8_t kind = (uint8_t)(KIND_AND + choose(2));
    uint32_t a = choose(net.count), b = choose(net.count);
    uint32_t number = netlist_add(&net, kind, (uint8_t)width, a, b, 0, 0);

    net.records[number].keep = choose_word();
}

/* An output that keeps nothing would leave nothing to ask for. */
static void add_output(uint32_t readable)
{
    if (batch->drawn > 0)
        netlist_output(&net, rng_below(&rng, readable),
                       full - rng_below(&rng, (uint32_t)full));
    else if (batch->registers)
        netlist_output(&net, choose(readable), full - choose(full));
    else
        netlist_output(&net, readable - 1, full);
}

static void make_design(uint32_t sources, uint32_t gates)
{
    uint32_t readable = sources + gates;

    netlist_clear(&net);
    while (net.count < sources)
        add_source(readable);
    while (net.count < readable)
        add_gate();
    add_output(readable);
}

static void try_design(void)
{
    static struct file file;
    uint8_t list[8 * MOST_RECORDS];
    uint64_t least, lost = 0;
    uint32_t i;

    least = smallest_family(&net);
    netlist_write(&net, &file);
    memset(list, 0xa5, sizeof list);
    if (pcn_masks(file.bytes, file.length, list, 8 * (size_t)net.count) >> 63
        && test_fail())
        printf("      refused\n");
    for (i = 0; i < net.count; i++) {
        uint64_t mask = read_64(list + 8 * (size_t)i);
        uint64_t right = least >> width * i & full;

        lost |= mask & net.records[i].keep & netlist_settled(&net, i);
        if (mask != right && test_fail())
            printf("      record %" PRIu32 " has %" PRIx64 " instead of %"
                   PRIx64 "\n", i, mask, right);
    }
    tried++;
    settled += lost != 0;
}

static void try_shape(uint32_t sources, uint32_t gates)
{
    unsigned i;

    made = known = 0;
    do
        for (i = 0; i < batch->drawn + (batch->drawn == 0); i++) {
            made = 0;
            make_design(sources, gates);
            try_design();
        }
    while (choose_on());
}

void masks_least(void)
{
    uint32_t count, gates;
    unsigned i;

    for (i = 0; i < sizeof batches / sizeof *batches; i++) {
        batch = &batches[i];
        width = batch->width;
        full = width_mask(width);
        rng = rng_for(SEED, i);
        tried = settled = 0;
        test_begin(batch->name);
        for (count = batch->least; count <= batch->most; count++)
            for (gates = 1; gates + 2 <= count; gates++)
                try_shape(count - 1 - gates, gates);
        printf("      %lu designs, in %lu of them a constant settles bits of"
               " a D\n", tried, settled);
        if (settled == 0)
            test_fail();
        test_end();
    }
}
