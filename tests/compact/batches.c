/* Draws the designs of batches, compacts them, and has them run.
   Assumes that no test has begun: each batch is one. */

#include "batches.h"

#include <stdio.h>

#include "../harness/report.h"
#include "../harness/styles.h"

static struct design design;

static const char *begin_design(struct rng *rng)
{
    const char *fault = beside_compact(&design.file, design.masks,
                                       &design.made);

    return fault != NULL ? fault
        : beside_begin(&design.beside, &design.file, &design.made, rng);
}

void run_batches(const struct batch *batches, size_t many, uint64_t seed,
                 unsigned long number, design_run *run, design_note *note)
{
    static struct netlist net;
    const struct batch *batch;
    uint32_t i;

    for (batch = batches; batch < batches + many; batch++) {
        test_begin(batch->name);
        for (i = 0; i < batch->designs; i++, number++) {
            struct rng rng = rng_for(seed, number);
            const char *fault;

            design_by_turn(&rng, &net,
                           rng_between(&rng, batch->least, batch->most), i);
            netlist_write(&net, &design.file);
            fault = begin_design(&rng);
            if (fault == NULL)
                fault = run(batch, &design, &rng);
            if (fault != NULL && test_fail())
                printf("      design %lu: %s\n", number, fault);
            note(&design);
        }
        test_end();
    }
}

uint32_t many_of(const struct file *counted, uint8_t kind)
{
    uint32_t count = read_16(counted->bytes + 6), many = 0, i;

    for (i = 0; i < count; i++)
        many += kind_at(counted->bytes, i) == kind;
    return many;
}
