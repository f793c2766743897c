/* The test program for trimming: examples of 01, keep words, and given lists.
   Assumes that the judge looks at every byte; masks/grid.c tries every bit. */

#include <stdio.h>

#include "../harness/examples.h"
#include "../harness/operations.h"
#include "../harness/options.h"
#include "../harness/report.h"
#include "../harness/trial.h"
#include "by_list.h"
#include "parts.h"

/* Designs and the keep words that they are trimmed to. */
static const struct worked worked[] = {
    /* The first input keeps 3c and is asked for 17, so 14 is left; the or
       keeps f7 and is asked for 1f. */
    { "keep words that are neither full nor the mask",
      DESIGN(KEEPING(0x3c, INPUT, 8, 0, 0, 0, 0),
             KEEPING(0, INPUT, 8, 0, 0, 0, 0),
             KEEPING(0xf7, OR, 8, 0, 1, 0, 0), OUTPUT(8, 2, 0x1f)),
      { 0x14, 0, 0x17, 0x1f } },
    { "keep words of 64 bits, of which all bytes differ",
      DESIGN(KEEPING(0xf1e2d3c4b5a69788u, INPUT, 64, 0, 0, 0, 0),
             OUTPUT(64, 0, 0x0123456789abcdefu)),
      { 0x0122414481a28588u, 0x0123456789abcdefu } },
    { "constants and reset states stay as they were",
      DESIGN(CONSTANT(8, 0xab), REGISTER(8, 0, 0xcd), OF_TWO(XOR, 8, 0, 1),
             OUTPUT(8, 2, 0x0f)),
      { 0x0f, 0x0f, 0x0f, 0x0f } },
    /* The output asks for 3c, of which the register keeps 2c, of which the
       input keeps 28. */
    { "what a register clears is not asked of its input",
      DESIGN(KEEPING(0xf8, INPUT, 8, 0, 0, 0, 0),
             KEEPING(0x2f, REGISTER, 8, 0, 0, 0, 0x5a), OUTPUT(8, 1, 0x3c)),
      { 0x28, 0x2c, 0x3c } },
    /* The shift keeps c6 of f6; 6 is asked for at 60, and c0 are copies. */
    { "a shift keeps some copies of the top bit, its operand that bit",
      DESIGN(INPUT(8), KEEPING(0xcf, ARITHMETIC_SHIFT, 8, 0, 0, 0, 4),
             OUTPUT(8, 1, 0xf6)),
      { 0xe0, 0xc6, 0xf6 } },
    { "a mode decoder for a mux that nobody reads keeps nothing",
      DESIGN(INPUT(3), CONSTANT(3, 5), OF_TWO(EQUAL, 1, 0, 1), INPUT(8),
             INPUT(8), ROW(MUX, 8, 2, 3, 4, 0), OUTPUT(8, 3, 0x3c)),
      { 0, 0, 0, 0x3c, 0, 0, 0x3c } },
    { "a sum keeps one bit, its operands all bits below",
      DESIGN(INPUT(8), INPUT(8), OF_TWO(ADD, 8, 0, 1), OUTPUT(8, 2, 8)),
      { 0x0f, 0x0f, 8, 8 } }
};

/* Accepted with these masks, in one step, and in two by these as a list. */
static void expect_in_steps(const struct operation *operation,
                            const struct netlist *net, const uint64_t *masks)
{
    expect_masks(operation, net, masks);
    expect_accepted(net, masks);
}

/* Accepted with these keep words in the destination. */
static void expect_keeps(const struct operation *operation,
                         const struct netlist *net, const uint64_t *keeps)
{
    struct known known = known_call(operation, net);

    demand_keeps(&known, keeps, net->count);
}

int main(int argc, char **argv)
{
    uint64_t seed = options_begin(argc, argv);

    trim_ramp();
    try_examples(&trim_operation, expect_in_steps);
    try_worked(&trim_operation, worked, sizeof worked / sizeof *worked,
               expect_keeps);
    trim_by_hand();
    trim_by_wider(seed);
    trim_by_spoilt(seed);
    trim_by_places(seed);
    printf("%lu files tried\n", trials_made());
    return tests_end() ? 0 : 1;
}
