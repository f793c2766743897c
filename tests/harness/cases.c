/* Calls of designs for the files of an operation, and valid ones of all sorts.
   Assumes that `arrange` and `prepare` do what operation.h says. */

#include <stdio.h>

#include "known.h"
#include "parts.h"
#include "report.h"

/* Designs with one record, and as many with two. */
enum { SMALL = 700 };

const struct operation *tried;
struct netlist case_nets[FILES];

/* How often valid designs had a record of this kind and width. */
static unsigned long met[KIND_COUNT][WIDTH_LIMIT + 1];

static uint32_t other_count(struct rng *rng, uint32_t count)
{
    uint32_t other = rng_below(rng, 2 * count + 2);

    return count == COUNT_LIMIT || other > COUNT_LIMIT ? COUNT_LIMIT : other;
}

struct lent make_case(struct rng *rng, uint32_t count, unsigned turn)
{
    unsigned i;

    for (i = 0; i < files_of(tried); i++)
        design_by_turn(rng, &case_nets[i],
                       i == 0 ? count : other_count(rng, count), turn);
    if (tried->arrange != NULL)
        tried->arrange(rng, case_nets);
    return lend(tried, rng, case_nets);
}

void try_accepted(const struct lent *lent)
{
    uint64_t answer = try_call(tried, lent);
    int may_be_too_short = 0;
    unsigned i;

    for (i = 0; i < parameters_of(tried); i++)
        if ((tried->parameters[i].sort & (READ | WRITTEN)) != 0
            && is_memory(tried->parameters[i].sort)
            && !is_measured(&tried->parameters[i]))
            may_be_too_short = 1;
    if (!may_be_too_short)
        demand_answer(answer >> 63, 0);
}

/* Accepted, and noted. */
static void try_design(struct rng *rng, uint32_t count, unsigned turn)
{
    struct lent lent = make_case(rng, count, turn);
    const struct record *record = case_nets[0].records;

    try_accepted(&lent);
    for (; record < case_nets[0].records + case_nets[0].count; record++)
        met[record->kind][record->width]++;
}

void valid_designs(struct rng *rng, unsigned turn)
{
    try_design(rng, design_count(rng, 0), turn);
}

void valid_sizes(struct rng *rng, unsigned turn)
{
    uint32_t small = (turn + SMALL - 1) / SMALL;

    try_design(rng, small <= 2 ? small : COUNT_LIMIT, turn);
}

void spoilt_words(struct rng *rng, unsigned turn)
{
    struct lent lent = make_case(rng, design_count(rng, 1), turn);

    lend_spoilt(tried, rng, &lent);
    try_call(tried, &lent);
}

void judge_designs(void)
{
    unsigned kind, width;

    test_begin("valid designs: every kind at every width it may have");
    for (kind = 0; kind < KIND_COUNT; kind++) {
        unsigned most = most_width((uint8_t)kind);

        for (width = least_width((uint8_t)kind); width <= most; width++)
            if (met[kind][width] == 0 && test_fail())
                printf("      kind %u never had width %u\n", kind, width);
    }
    test_end();
}
