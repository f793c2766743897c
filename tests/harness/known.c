/* Tries designs whose results are known, one named test for each.
   Assumes that lists are lent with any bytes in them. */

#include "known.h"

#include <string.h>

#include "examples.h"
#include "lend.h"
#include "report.h"
#include "trial.h"

static struct netlist made;

void worked_make(struct netlist *net, const struct worked *worked)
{
    netlist_clear(net);
    if (worked->count > 0)
        memcpy(net->records, worked->records,
               worked->count * sizeof *worked->records);
    net->count = (uint32_t)worked->count;
    net->header_count = (uint16_t)worked->count;
}

void try_worked(const struct operation *operation,
                const struct worked *worked, size_t many,
                attempt_words *attempt)
{
    for (; many-- > 0; worked++) {
        worked_make(&made, worked);
        test_begin(worked->name);
        attempt(operation, &made, worked->words);
        test_end();
    }
}

void try_examples(const struct operation *operation, attempt_words *attempt)
{
    static const uint64_t nothing[COUNT_LIMIT];

    try_worked(operation, paper_examples, EXAMPLES, attempt);
    while (made.count < COUNT_LIMIT)
        netlist_input(&made, 64);
    test_begin("example: 2,048 records");
    attempt(operation, &made, nothing);
    test_end();
}

unsigned least_width(uint8_t kind)
{
    return kind == KIND_CONCAT ? 2 : 1;
}

unsigned most_width(uint8_t kind)
{
    if (kind == KIND_MUL)
        return MULTIPLIER_LIMIT;
    return kind_compares(kind) ? 1 : 64;
}

void reader_make(struct netlist *net, uint8_t kind, const unsigned *widths,
                 uint64_t k)
{
    unsigned used = kind_operands(kind);
    int i;

    netlist_clear(net);
    for (i = 1; i <= READER; i++)
        netlist_input(net, (uint8_t)widths[i]);
    netlist_add(net, kind, (uint8_t)widths[0], 0, used > 1, used > 2 ? 2 : 0,
                k);
}

void reader_suited(struct netlist *net, uint8_t kind, unsigned width)
{
    unsigned widths[4] = { width, width, width, width };
    uint64_t k = kind_uses(kind, 'k') ? width_mask(width) : 0;

    if (kind == KIND_EXTRACT || kind_compares(kind))
        widths[1] = widths[2] = 64;
    if (kind == KIND_EXTRACT)
        k = 64 - (uint64_t)width;
    if (kind_shifts(kind))
        k = width / 2;
    if (kind == KIND_CONCAT)
        widths[2] = width - 1;
    if (kind == KIND_CONCAT || kind == KIND_MUX)
        widths[1] = 1;
    widths[3] = widths[2];
    reader_make(net, kind, widths, k);
}

struct lent lend_worked(const struct operation *operation,
                        const struct worked *worked)
{
    struct rng rng = rng_for(3, trials_made());

    worked_make(&made, worked);
    return lend(operation, &rng, &made);
}

struct known known_call(const struct operation *operation,
                        const struct netlist *net)
{
    struct rng rng = rng_for(3, trials_made());
    struct known known;

    known.lent = lend(operation, &rng, net);
    known.answer = try_call(operation, &known.lent);
    return known;
}

struct known known_file(const struct operation *operation,
                        const uint8_t *bytes, size_t length)
{
    static struct file file;
    struct rng rng = rng_for(3, trials_made());
    struct known known;

    memcpy(file.bytes, bytes, length);
    file.length = length;
    known.lent = lend_files(operation, &rng, &file);
    known.answer = try_call(operation, &known.lent);
    return known;
}

void expect_masks(const struct operation *operation,
                  const struct netlist *net, const uint64_t *masks)
{
    struct known known = known_call(operation, net);

    demand_answer(known.answer >> 63, 0);
    demand_words("mask list", &known.lent.of[1], masks, net->count);
}
