/* Random designs of all styles, clocked beside their compacted files.
   Assumes that design number i depends only on the seed and on i. */

#include "../harness/facts.h"
#include "batches.h"
#include "parts.h"

enum { FIRST = 15000000 /* apart from the numbers of other tests */ };

static const struct batch batches[] = {
    { "generated: runs: designs with 0 to 12 records", 3600, 0, 12, 200,
      { 60, 9 } },
    { "generated: runs: designs with 13 to 100 records", 2700, 13, 100, 200,
      { 60, 9 } },
    { "generated: runs: designs with 101 to 600 records", 180, 101, 600, 200,
      { 60, 9 } },
    { "generated: runs: designs with 2,048 records", 27, 2048, 2048, 100,
      { 50, 9 } },
    { "generated: runs: 3,000 cycles, few starts", 90, 5, 60, 3000,
      { 1500, 9 } }
};

static struct facts facts;

/* The first accepted call is a start. */
static const char *run_both(const struct batch *batch, struct design *design,
                            struct rng *rng)
{
    struct beside *beside = &design->beside;
    const char *fault = beside_refused(beside, &batch->chances, rng);
    unsigned i;

    if (fault == NULL)
        fault = beside_start(beside);
    for (i = 0; i < batch->cycles && fault == NULL; i++)
        fault = beside_call(beside, &batch->chances, rng);
    return fault;
}

static int has_unread_pin(const struct design *design)
{
    const struct places *pins = &design->beside.old.pins;
    uint32_t i;

    for (i = 0; i < pins->many; i++)
        if (design->masks[pins->of[i]] == 0)
            return 1;
    return 0;
}

static void note_run(const struct design *design)
{
    const struct file *file = &design->file, *made = &design->made;
    uint32_t registers = many_of(made, KIND_REGISTER);

    facts.many = 0;
    fact(&facts, "nothing went", made->length == file->length);
    fact(&facts, "something went", made->length < file->length);
    fact(&facts, "half of the records went, and there are outputs",
         many_of(made, KIND_OUTPUT) > 0
         && 2 * (made->length - 8) < file->length - 8);
    fact(&facts, "there are more constants than before",
         many_of(made, KIND_CONSTANT) > many_of(file, KIND_CONSTANT));
    fact(&facts, "there are fewer registers",
         registers < many_of(file, KIND_REGISTER));
    fact(&facts, "there are fewer registers, and some still",
         registers > 0 && registers < many_of(file, KIND_REGISTER));
    fact(&facts, "a pin is not cared for", has_unread_pin(design));
    fact(&facts, "an output was not 0, and something went",
         design->beside.met.output_not_zero && made->length < file->length);
    fact(&facts, "a start in mid-run", design->beside.met.restarted);
    fact(&facts, "refused calls", design->beside.met.refused);
}

void compact_runs(uint64_t seed)
{
    run_batches(batches, sizeof batches / sizeof *batches, seed, FIRST,
                run_both, note_run);
    judge_facts("generated: facts of these runs", &facts);
}
