/* Tries every family of masks of a design against its care rules.
   Assumes what its header says of the design. */

#include "smallest.h"

#include <stdio.h>

#include "../harness/report.h"

static unsigned width;
static uint64_t full;

/* Of D, the bits that an and or an or asks of operand i: where the other one
   alone is a constant, those that its value leaves open. */
static uint64_t gate_asks(const struct netlist *net,
                          const struct record *gate, unsigned i)
{
    const struct record *one = &net->records[gate->operand[i]];
    const struct record *other = &net->records[gate->operand[1 - i]];
    uint64_t value = other->k & other->keep;

    if (one->kind == KIND_CONSTANT || other->kind != KIND_CONSTANT)
        return full;
    return gate->kind == KIND_AND ? value : full & ~value;
}

/* The care rule of each record: the bits that its mask has in any case, the
   keep word, and the bits of D that it asks of a and of b. */
static struct rule {
    uint64_t always, keep, asks[2];
    uint32_t operand[2];
} rules[MOST_RECORDS];

static void write_rules(const struct netlist *net)
{
    uint32_t i;

    for (i = 0; i < net->count; i++) {
        const struct record *record = &net->records[i];
        struct rule rule = { 0, 0, { 0, 0 }, { 0, 0 } };

        rule.keep = record->keep;
        rule.operand[0] = record->operand[0];
        rule.operand[1] = record->operand[1];
        if (record->kind == KIND_OUTPUT)
            rule.always = full;
        if (record->kind == KIND_OUTPUT || record->kind == KIND_REGISTER)
            rule.asks[0] = full;
        if (kind_cuts(record->kind)) {
            rule.asks[0] = gate_asks(net, record, 0);
            rule.asks[1] = gate_asks(net, record, 1);
        }
        rules[i] = rule;
    }
}

static uint64_t mask_in(uint64_t family, uint32_t number)
{
    return family >> width * number & full;
}

/* Whether a family meets every care rule: no mask lacks a bit that it has in
   any case, nor one that a reader asks. */
static int meets_rules(uint64_t family, uint32_t count)
{
    uint32_t i = count;

    while (i-- > 0) {
        const struct rule *rule = &rules[i];
        uint64_t mask = mask_in(family, i), d = mask & rule->keep;

        if ((rule->always & ~mask) != 0
            || (d & rule->asks[0] & ~mask_in(family, rule->operand[0])) != 0
            || (d & rule->asks[1] & ~mask_in(family, rule->operand[1])) != 0)
            return 0;
    }
    return 1;
}

uint64_t smallest_family(const struct netlist *net)
{
    uint64_t all, family, least;

    width = net->records[0].width;
    full = width_mask(width);
    write_rules(net);
    all = least = width_mask(width * net->count);
    for (family = 0; family <= all; family++)
        if (meets_rules(family, net->count))
            least &= family;
    if (!meets_rules(least, net->count) && test_fail())
        printf("      no family is the smallest one\n");
    return least;
}
