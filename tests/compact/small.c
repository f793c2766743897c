/* Compacts every small design, and clocks it beside its compacted file.
   Assumes that so few registers show all they do within a few cycles. */

#include <stdio.h>
#include <string.h>

#include "../harness/facts.h"
#include "../harness/operations.h"
#include "../harness/report.h"
#include "../harness/trial.h"
#include "beside.h"
#include "parts.h"
#include "small_designs.h"

enum {
    FIRST = 14000000, /* apart from the numbers of other tests */
    CYCLES = 6,
    ROOM = HEADER_BYTES + RECORD_BYTES * SMALL_MOST
};

/* What is lent to a call: before it, and then as the call has left it. */
struct memory {
    uint64_t list[SMALL_MOST];
    uint8_t destination[ROOM];
};

static struct file made;
static struct rng rng;
static struct facts facts;

static struct lent lent_from(struct memory *memory, struct file *file)
{
    struct lent lent;

    memset(&lent, 0, sizeof lent);
    lent.of[0].bytes = file->bytes;
    lent.of[0].length = file->length;
    lent.of[1].bytes = (uint8_t *)memory->list;
    lent.of[1].length = 8 * (size_t)read_16(file->bytes + 6);
    lent.of[2].bytes = memory->destination;
    lent.of[2].length = file->length;
    return lent;
}

/* From reset, with any bits at the pins. */
static void run_beside(const struct file *file)
{
    static struct beside beside;
    const char *fault = beside_begin(&beside, file, &made, &rng);
    unsigned i;

    if (fault == NULL)
        fault = beside_start(&beside);
    for (i = 0; i < CYCLES && fault == NULL; i++)
        fault = beside_drawn_cycle(&beside, &rng);
    if (fault != NULL && test_fail())
        printf("      %s\n", fault);
}

/* The constants of the design itself are 1. */
static void note_design(const struct file *file)
{
    uint32_t count = read_16(file->bytes + 6);
    uint32_t left = read_16(made.bytes + 6), emptied = 0, i;

    for (i = 0; i < left; i++) {
        struct record record = read_record(made.bytes, i);

        emptied += record.kind == KIND_CONSTANT && record.k == 0;
    }
    facts.many = 0;
    fact(&facts, "nothing goes", left == count);
    fact(&facts, "something goes and something stays",
         left > 0 && left < count);
    fact(&facts, "all goes", left == 0);
    fact(&facts, "a survivor becomes a constant", emptied > 0);
    fact(&facts, "a survivor becomes a constant, and something goes",
         emptied > 0 && left < count);
    fact(&facts, "a register becomes a constant, and nothing goes",
         left == count && count > 0
         && kind_at(file->bytes, 0) == KIND_REGISTER
         && kind_at(made.bytes, 0) == KIND_CONSTANT);
}

static void try_design(struct file *file)
{
    struct memory before, after;
    struct lent lent = lent_from(&before, file);
    struct lent left = lent_from(&after, file);
    uint64_t answer;

    rng_fill(&rng, (uint8_t *)&before, sizeof before);
    after = before;
    answer = compact_operation.library(&left);
    judge_call(&compact_operation, &lent, &left, answer);
    if (answer > file->length)
        return;
    memcpy(made.bytes, after.destination, answer);
    made.length = answer;
    run_beside(file);
    note_design(file);
}

void compact_small(uint64_t seed)
{
    rng = rng_for(seed, FIRST);
    each_small_design(try_design);
    judge_facts("small: facts of these designs", &facts);
}
