/* Random designs of every style, and which cases of the care rules they meet.
   Assumes that the judge of a trim looks at its masks and at those after it. */

#include <stdio.h>

#include "../harness/facts.h"
#include "../harness/known.h"
#include "../harness/operations.h"
#include "../harness/report.h"
#include "../harness/styles.h"
#include "../harness/trial.h"
#include "parts.h"

enum { DESIGNS = 6400 };

/* What was met in records of each kind, in sums of any kind, and in designs. */
static struct facts of_kind[KIND_COUNT], of_sums, of_designs;

/* How the D of a shift asks: some of its bits lie in places that are filled, in
   an arithmetic one by copies of the top bit. */
static void note_shift(struct facts *facts, const struct record *record,
                       uint64_t d)
{
    uint64_t full = width_mask(record->width), k = record->k;
    uint64_t filled = record->kind == KIND_LEFT_SHIFT
        ? full & ~(full << k) : full & ~(full >> k);

    fact(facts, "moves D", d != 0 && k > 0);
    fact(facts, "moves nothing", d != 0 && k == 0);
    fact(facts, "D is filled in whole", d != 0 && (d & ~filled) == 0);
    fact(facts, "D is filled in part",
         (d & filled) != 0 && (d & ~filled) != 0);
    if (record->kind == KIND_ARITHMETIC_SHIFT)
        fact(facts, "only copies ask for the top bit",
             (d & filled) != 0 && (d << k >> (record->width - 1) & 1) == 0);
}

/* How the D of an and or an or asks: whether it reads a constant, and what
   this leaves of D. */
static void note_cut(struct facts *facts, const struct netlist *net,
                     uint32_t number, uint64_t d)
{
    const uint32_t *operand = net->records[number].operand;
    const struct record *a = &net->records[operand[0]];
    const struct record *b = &net->records[operand[1]];
    uint64_t lost = d & netlist_settled(net, number);
    int place = netlist_constant(net, number);
    int are_two = a->kind == KIND_CONSTANT && b->kind == KIND_CONSTANT;
    uint64_t cleared = place == 0 ? a->k & ~a->keep : b->k & ~b->keep;
    uint64_t unlike = (a->k & a->keep) ^ (b->k & b->keep);

    fact(facts, "a is the constant, D loses bits", lost != 0 && place == 0);
    fact(facts, "b is the constant, D loses bits", lost != 0 && place == 1);
    fact(facts, "D loses all bits", lost != 0 && lost == d);
    fact(facts, "D loses some bits", lost != 0 && lost != d);
    fact(facts, "D loses nothing by a constant",
         d != 0 && lost == 0 && place >= 0);
    fact(facts, "the constant's k has a bit in D that is not kept",
         place >= 0 && (d & cleared) != 0);
    fact(facts, "both are constants, unlike in D",
         are_two && (d & unlike) != 0);
    fact(facts, "both are the same constant",
         are_two && operand[0] == operand[1] && d != 0);
    fact(facts, "neither is a constant",
         d != 0 && place < 0 && !are_two);
}

/* How its D asks, for kinds that ask in several ways. */
static void note_asking(struct facts *facts, const struct netlist *net,
                        uint32_t number, uint64_t d)
{
    const struct record *record = &net->records[number];
    uint32_t a = record->operand[0];
    uint64_t low = width_mask(net->records[record->operand[1]].width);

    if (record->kind == KIND_REGISTER) {
        fact(facts, "asks itself", d != 0 && a == number);
        fact(facts, "asks an earlier record", d != 0 && a < number);
        fact(facts, "asks a later record", d != 0 && a > number);
    }
    if (record->kind == KIND_EXTRACT) {
        fact(facts, "moves D", d != 0 && record->k > 0);
        fact(facts, "asks for the top bit",
             d << record->k >> (net->records[a].width - 1) != 0);
    }
    if (record->kind == KIND_CONCAT) {
        fact(facts, "asks both parts", (d & low) != 0 && (d & ~low) != 0);
        fact(facts, "asks the high part", d != 0 && (d & low) == 0);
        fact(facts, "asks the low part", d != 0 && (d & ~low) == 0);
    }
    if (record->kind == KIND_MUX)
        fact(facts, "D has bits but not bit 0", d != 0 && (d & 1) == 0);
    if (kind_cuts(record->kind))
        note_cut(facts, net, number, d);
    if (kind_shifts(record->kind))
        note_shift(facts, record, d);
    if (record->kind >= KIND_ADD && record->kind <= KIND_MUL) {
        of_sums.many = 0;
        fact(&of_sums, "D has gaps", (d & (d + 1)) != 0);
        fact(&of_sums, "D has bit 63", d >> 63 != 0);
    }
}

/* An output has its whole mask, and a comparison one bit only. */
static void note(const struct netlist *net, uint32_t number, uint64_t mask)
{
    const struct record *record = &net->records[number];
    uint64_t keep = record->keep, d = mask & keep;
    int is_partly = d != 0 && d != width_mask(record->width);
    struct facts *facts = &of_kind[record->kind];

    facts->many = 0;
    fact(facts, "D is the keep word and not 0", d == keep && d != 0);
    fact(facts, "the keep word is 0, the mask not", keep == 0 && mask != 0);
    if (!kind_compares(record->kind))
        fact(facts, "D has some of all bits", is_partly);
    if (record->kind == KIND_OUTPUT)
        return;
    fact(facts, "the keep word is cut to 0", keep != 0 && d == 0);
    fact(facts, "D is the mask, not the keep word", d == mask && d != keep);
    if (!kind_compares(record->kind))
        fact(facts, "D is neither", d != mask && d != keep);
    note_asking(facts, net, number, d);
}

static void try_drawn(const struct netlist *net)
{
    struct known known = known_call(&trim_operation, net);
    uint64_t cut = 0;
    uint32_t i;

    demand_answer(known.answer >> 63, 0);
    for (i = 0; i < net->count; i++) {
        uint64_t mask = read_64(known.lent.of[1].bytes + 8 * (size_t)i);

        note(net, i, mask);
        cut |= net->records[i].keep & ~mask;
    }
    of_designs.many = 0;
    for (i = 0; i < 8; i++)
        fact(&of_designs, "byte of a keep word cut", cut >> 8 * i & 0xff);
}

void masks_drawn(uint64_t seed)
{
    static struct netlist net;
    char name[40];
    unsigned i;

    test_begin("drawn: keep words cut to the masks give the same masks");
    for (i = 0; i < DESIGNS; i++) {
        struct rng rng = rng_for(seed, i);

        design_by_turn(&rng, &net, design_count(&rng, 0), i);
        try_drawn(&net);
    }
    test_end();
    for (i = 0; i < KIND_COUNT; i++) {
        sprintf(name, "drawn: records of kind %u", i);
        judge_facts(name, &of_kind[i]);
    }
    judge_facts("drawn: sums", &of_sums);
    judge_facts("drawn: designs", &of_designs);
}
