/* The designs among the examples of 01, with their masks, and a file to break.
   Assumes that the reader has the paper's list beside it. */

#include "examples.h"

/* The last 16 bytes of a record: k, which is 0, and the keep word. */
#define LOW_16 0, 0, 0, 0, 0, 0, 0, 0, 255, 255, 0, 0, 0, 0, 0, 0
#define LOW_32 0, 0, 0, 0, 0, 0, 0, 0, 255, 255, 255, 255, 0, 0, 0, 0

const uint8_t ramp_bytes[RAMP_BYTES] = {
    'P', 'C', 'N', 1, 0, 0, 7, 0,
    0, 32, 0, 0, 0, 0, 0, 0, LOW_32,
    0, 32, 0, 0, 0, 0, 0, 0, LOW_32,
    0, 32, 0, 0, 0, 0, 0, 0, LOW_32,
    12, 32, 0, 0, 1, 0, 0, 0, LOW_32,
    10, 32, 3, 0, 2, 0, 0, 0, LOW_32,
    4, 16, 4, 0, 0, 0, 0, 0, LOW_16,
    3, 16, 5, 0, 0, 0, 0, 0, LOW_16
};

const struct worked paper_examples[EXAMPLES] = {
    { "example: ramp",
      DESIGN(INPUT(32), INPUT(32), INPUT(32), OF_TWO(MUL, 32, 0, 1),
             OF_TWO(ADD, 32, 3, 2), EXTRACT(16, 4, 0), OUTPUT(16, 5, 0xffff)),
      { 0xffff, 0xffff, 0xffff, 0xffff, 0xffff, 0xffff, 0xffff } },
    { "example: ramp with extract of width 8 at 8",
      DESIGN(INPUT(32), INPUT(32), INPUT(32), OF_TWO(MUL, 32, 0, 1),
             OF_TWO(ADD, 32, 3, 2), EXTRACT(8, 4, 8), OUTPUT(8, 5, 0xff)),
      { 0xffff, 0xffff, 0xffff, 0xffff, 0xff00, 0xff, 0xff } },
    { "example: counter without output",
      DESIGN(REGISTER(8, 2, 0), CONSTANT(8, 1), OF_TWO(ADD, 8, 0, 1)),
      { 0, 0, 0 } },
    { "example: shift chain",
      DESIGN(INPUT(1), REGISTER(4, 3, 0), EXTRACT(3, 1, 1),
             OF_TWO(CONCAT, 4, 0, 2), EXTRACT(1, 1, 0), OUTPUT(1, 4, 1)),
      { 1, 0xf, 7, 0xf, 1, 1 } },
    { "example: two registers that read each other",
      DESIGN(REGISTER(8, 1, 1), REGISTER(8, 0, 2)), { 0, 0 } },
    /* Request #102 took the selector's bit away. */
    { "example: a mux that nobody reads",
      DESIGN(INPUT(1), INPUT(8), INPUT(8), ROW(MUX, 8, 0, 1, 2, 0)),
      { 0, 0, 0, 0 } },
    { "example: no records at all", NULL, 0, { 0 } }
};

void example_ramp(struct netlist *net, uint8_t width, uint64_t k)
{
    worked_make(net, &paper_examples[RAMP]);
    net->records[5].width = net->records[6].width = width;
    net->records[5].keep = net->records[6].keep = width_mask(width);
    net->records[5].k = k;
}

void example_counter(struct netlist *net)
{
    worked_make(net, &paper_examples[COUNTER]);
}

void example_shift_chain(struct netlist *net)
{
    worked_make(net, &paper_examples[SHIFT_CHAIN]);
}

const unsigned rules[RULES] = { 1, 2, 3, 4, 5, 6, 7, 8, 9, 15, 10 };

/* The bytes that break rules of the header, and of an add of 33 bits: the
   input of 9 bits is no operand for it, and as a multiplier it is too wide. */
static const struct {
    uint8_t place, value;
} breaks[] = {
    { 0, 0 }, { 0, 0 }, { 5, 1 }, { 3, 2 }, { 7, 16 }, { 0, 0 },
    { 0, KIND_COUNT }, { 1, WIDTH_LIMIT + 1 }, { 3, 255 }, { 4, 2 }, { 6, 1 },
    [15] = { 0, KIND_MUL }
};

static const struct worked adds = {
    "adds", DESIGN(INPUT(33), INPUT(33), INPUT(9), OF_TWO(ADD, 33, 0, 1),
                   OF_TWO(ADD, 33, 0, 1)), { 0 }
};

void adds_write(struct file *file)
{
    static struct netlist net;

    worked_make(&net, &adds);
    netlist_write(&net, file);
}

uint32_t adds_break(struct file *file, unsigned rule, uint32_t add)
{
    uint32_t record = rule < 6 ? 0 : add;
    size_t at = rule < 6 ? 0 : HEADER_BYTES + RECORD_BYTES * (size_t)add;

    if (rule == 1)
        file->length = HEADER_BYTES - 1;
    else if (rule == 5)
        file->length--;
    else
        file->bytes[at + breaks[rule].place] = breaks[rule].value;
    return record;
}
