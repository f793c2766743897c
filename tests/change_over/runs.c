/* Random designs of all styles, changed over at a random cycle of a run.
   Assumes that design number i depends only on the seed and on i. */

#include "../compact/batches.h"
#include "../harness/facts.h"
#include "over.h"
#include "parts.h"

enum { FIRST = 17000000 /* apart from the numbers of other tests */ };

static const struct batch batches[] = {
    { "generated: runs: designs with 0 to 12 records", 3600, 0, 12, 100,
      { 60, 9 } },
    { "generated: runs: designs with 13 to 100 records", 2700, 13, 100, 100,
      { 60, 9 } },
    { "generated: runs: designs with 101 to 600 records", 180, 101, 600, 100,
      { 60, 9 } },
    { "generated: runs: designs with 2,048 records", 27, 2048, 2048, 60,
      { 50, 9 } },
    { "generated: runs: 2,000 cycles, few starts", 90, 5, 60, 2000,
      { 1500, 9 } }
};

static struct over over;
static unsigned alone;
static struct facts facts;

/* The change over comes at any place but behind the last cycle. */
static const char *run_design(const struct batch *batch,
                              struct design *design, struct rng *rng)
{
    struct course course = { 0, 0, batch->chances };

    course.alone = alone = rng_below(rng, batch->cycles);
    course.together = batch->cycles - alone;
    return run_over(&design->beside, &course, &over, rng);
}

/* Whether a record of this kind had bits outside its mask, with others in it
   or with mask 0. */
static int had_uncared(const struct design *design, uint8_t kind, int cared)
{
    const struct side *side = &design->beside.old;
    uint32_t i;

    for (i = 0; i < side->count; i++)
        if (kind_at(side->file, i) == kind
            && (over.board[i] & ~over.masks[i]) != 0
            && (cared ? (over.board[i] & over.masks[i]) != 0
                      : over.masks[i] == 0))
            return 1;
    return 0;
}

static void note_run(const struct design *design)
{
    const struct file *file = &design->file, *made = &design->made;
    uint32_t registers = many_of(made, KIND_REGISTER);
    int shorter = made->length < file->length;

    facts.many = 0;
    fact(&facts, "nothing went", !shorter);
    fact(&facts, "something went, and registers are left",
         shorter && registers > 0);
    fact(&facts, "there are fewer registers, and some still",
         registers > 0 && registers < many_of(file, KIND_REGISTER));
    fact(&facts, "a state lost some of its bits",
         had_uncared(design, KIND_REGISTER, 1));
    fact(&facts, "a state was lost as a whole",
         had_uncared(design, KIND_REGISTER, 0));
    fact(&facts, "a pin's word had bits outside its mask, and others",
         had_uncared(design, KIND_INPUT, 1));
    fact(&facts, "the word of a pin that is not cared for",
         had_uncared(design, KIND_INPUT, 0));
    fact(&facts, "changed over within the first ten calls", alone < 10);
    fact(&facts, "changed over later", alone >= 10);
    fact(&facts, "an output was not 0 afterwards, and something went",
         design->beside.met.output_not_zero && shorter);
    fact(&facts, "a start afterwards", design->beside.met.restarted);
    fact(&facts, "no start afterwards, and registers are left",
         registers > 0 && !design->beside.met.restarted);
    fact(&facts, "refused calls afterwards", design->beside.met.refused);
}

void change_over_runs(uint64_t seed)
{
    run_batches(batches, sizeof batches / sizeof *batches, seed, FIRST,
                run_design, note_run);
    judge_facts("generated: facts of these runs", &facts);
}
