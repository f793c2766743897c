/* Lists that meet the rules but for one bit, which is changed at every place.
   Assumes small designs, since each record has 64 places. */

#include <stdio.h>

#include "../harness/designs.h"
#include "../harness/facts.h"
#include "../harness/lists.h"
#include "../harness/report.h"
#include "../harness/styles.h"
#include "../harness/trial.h"
#include "../masks/closed.h"
#include "by_list.h"
#include "parts.h"

enum {
    FIRST = 13000000, /* apart from the numbers of other tests */
    DESIGNS = 225,
    MOST_COUNT = 7
};

static struct netlist net;
static struct file file;
static uint64_t list[COUNT_LIMIT];
static struct facts without, with;

/* Whether a record of this number is one of those that `reader` reads. */
static int is_operand(uint32_t number, uint32_t reader)
{
    const struct record *record = &net.records[reader];
    unsigned i;

    for (i = 0; i < kind_operands(record->kind); i++)
        if (record->operand[i] == number)
            return 1;
    return 0;
}

/* The answer for a list of these masks. */
static uint64_t tally(void)
{
    return tally_of(file.bytes, list);
}

/* A bit less: nobody else asks for less than before, so that only the record
   itself can be refused. In the smallest masks every bit is called for. */
static void demand_without(uint64_t answer, uint32_t number, int is_smallest)
{
    int is_refused = answer == refused_answer(14, number);

    if (!is_refused && (is_smallest || answer != tally()) && test_fail())
        printf("      a bit less at record %u\n", (unsigned)number);
    without.many = 0;
    fact(&without, "refused in the smallest masks", is_refused && is_smallest);
    fact(&without, "refused in others", is_refused && !is_smallest);
    fact(&without, "accepted", !is_refused);
}

/* A bit more asks for more at the operands, of which the lowest is refused
   that has not got it. */
static void demand_with(uint64_t answer, uint32_t number)
{
    uint32_t named = (uint32_t)answer;
    int is_refused = answer >> 32 == 0x8000000eu && is_operand(named, number);

    if (!is_refused && answer != tally() && test_fail())
        printf("      a bit more at record %u\n", (unsigned)number);
    with.many = 0;
    fact(&with, "accepted", !is_refused);
    fact(&with, "refused at an earlier record", is_refused && named < number);
    fact(&with, "refused at a later record", is_refused && named > number);
}

static void try_place(uint32_t number, unsigned bit, int is_smallest)
{
    uint64_t old = list[number], place = (uint64_t)1 << bit, answer;

    list[number] ^= place;
    answer = list_call(&net, list).answer;
    if (bit >= net.records[number].width)
        demand_answer(answer, refused_answer(14, number));
    else if ((old & place) != 0)
        demand_without(answer, number, is_smallest);
    else
        demand_with(answer, number);
    list[number] = old;
}

static void try_places(struct rng *rng, enum list_sort sort)
{
    uint32_t i;
    unsigned bit;

    netlist_write(&net, &file);
    draw_list(rng, file.bytes, list, sort);
    for (i = 0; i < net.count; i++)
        for (bit = 0; bit < 64; bit++)
            try_place(i, bit, sort == SMALLEST);
}

/* Records of every kind, of which all bits, the lowest one, the top one or
   none are asked for. */
static void try_readers(struct rng *rng, uint8_t kind, unsigned width)
{
    uint64_t asked[4] = { 0, 1, 0, 0 };
    unsigned i;

    asked[0] = width_mask(width);
    asked[2] = (uint64_t)1 << (width - 1);
    for (i = 0; i < 4; i++) {
        reader_suited(&net, kind, width);
        if (kind == KIND_OUTPUT)
            net.records[READER].keep = asked[i];
        else
            netlist_output(&net, READER, asked[i]);
        try_places(rng, SMALLEST);
    }
}

static void every_kind(void)
{
    static const unsigned widths[] = { 1, 2, 8, 32, 33, 63, 64 };
    struct rng rng = rng_for(FIRST, 0);
    unsigned kind, i;

    test_begin("by list: one bit changed at every place, records of any kind");
    for (kind = 0; kind < KIND_COUNT; kind++)
        for (i = 0; i < sizeof widths / sizeof *widths; i++)
            if (widths[i] >= least_width((uint8_t)kind)
                && widths[i] <= most_width((uint8_t)kind))
                try_readers(&rng, (uint8_t)kind, widths[i]);
    test_end();
}

/* The smallest masks of a design, and a list of another sort. */
void trim_by_places(uint64_t seed)
{
    unsigned i;

    every_kind();
    test_begin("by list: one bit changed at every place, small designs");
    for (i = 0; i < DESIGNS; i++) {
        struct rng rng = rng_for(seed, FIRST + i);

        design_by_turn(&rng, &net, rng_between(&rng, 1, MOST_COUNT), i);
        try_places(&rng, SMALLEST);
        try_places(&rng, (enum list_sort)rng_between(&rng, MORE_BITS,
                                                     ALL_BITS));
    }
    test_end();
    judge_facts("by list: facts of a bit less", &without);
    judge_facts("by list: facts of a bit more", &with);
}
