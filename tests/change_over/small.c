/* Changes over in every small design, after a few cycles from any states.
   Assumes that so few registers show all they do within a few cycles. */

#include <stdio.h>
#include <string.h>

#include "../compact/small_designs.h"
#include "../harness/facts.h"
#include "../harness/operations.h"
#include "../harness/report.h"
#include "../harness/trial.h"
#include "over.h"
#include "parts.h"

enum { FIRST = 16000000 /* apart from the numbers of other tests */ };

/* Without an output there is nothing that cycles could show. */
static const struct course with_outputs = { 2, 6, { 8, 8 } };
static const struct course without_outputs = { 0, 0, { 8, 8 } };

static struct beside beside;
static struct over over;
static struct file made;
static struct rng rng;
static struct facts facts;

/* The call once more, on its board list, before it and as the call left it. */
static void judge_design(struct file *file)
{
    uint32_t count = read_16(file->bytes + 6);
    uint64_t before[2][SMALL_MOST], after[2][SMALL_MOST];
    struct lent lent = { { { file->bytes, file->length, 0 },
                           { (uint8_t *)before[0], 8 * (size_t)count, 0 },
                           { (uint8_t *)over.board, 8 * (size_t)count, 0 },
                           { (uint8_t *)before[1], 8 * (size_t)count, 0 } } };
    struct lent left = lent;

    rng_fill(&rng, (uint8_t *)before, sizeof before);
    memcpy(after, before, sizeof after);
    left.of[1].bytes = (uint8_t *)after[0];
    left.of[3].bytes = (uint8_t *)after[1];
    judge_call(&change_over_operation, &lent, &left,
               change_over_operation.library(&left));
}

/* Whether a record of this kind had a 1 and mask 0. */
static int had_uncared(const struct file *file, uint8_t kind)
{
    uint32_t i;

    for (i = 0; i < read_16(file->bytes + 6); i++)
        if (kind_at(file->bytes, i) == kind && over.masks[i] == 0
            && over.board[i] == 1)
            return 1;
    return 0;
}

static void note_design(const struct file *file)
{
    uint32_t count = read_16(file->bytes + 6), left = beside.made.count, i;
    int carried = 0;

    for (i = 0; i < count; i++)
        carried |= kind_at(file->bytes, i) == KIND_REGISTER
            && (over.board[i] & over.masks[i]) != 0;
    facts.many = 0;
    fact(&facts, "nothing goes", left == count);
    fact(&facts, "something goes and something stays",
         left > 0 && left < count);
    fact(&facts, "a state is carried", carried);
    fact(&facts, "a state is carried, and something goes",
         carried && left < count);
    fact(&facts, "a state is not carried", had_uncared(file, KIND_REGISTER));
    fact(&facts, "a state is not carried, and nothing goes",
         left == count && had_uncared(file, KIND_REGISTER));
    fact(&facts, "the word of a pin that is not cared for is carried",
         had_uncared(file, KIND_INPUT));
}

static void try_design(struct file *file)
{
    const char *fault = beside_compact(file, over.masks, &made);

    if (fault == NULL)
        fault = beside_begin(&beside, file, &made, &rng);
    if (fault == NULL)
        fault = run_over(&beside, beside.old.outputs.many > 0
                                  ? &with_outputs : &without_outputs,
                         &over, &rng);
    if (fault != NULL && test_fail())
        printf("      %s\n", fault);
    judge_design(file);
    note_design(file);
}

void change_over_small(uint64_t seed)
{
    rng = rng_for(seed, FIRST);
    each_small_design(try_design);
    judge_facts("small: facts of these designs", &facts);
}
