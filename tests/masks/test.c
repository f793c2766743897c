/* The test program for masks: examples, small designs, and all other parts.
   Assumes that the masks of the small designs were worked out by hand. */

#include <stdio.h>

#include "../harness/examples.h"
#include "../harness/operations.h"
#include "../harness/options.h"
#include "../harness/report.h"
#include "../harness/trial.h"
#include "parts.h"

/* Designs and their masks. */
static const struct worked worked[] = {
    /* The extract asks for fc0, the xor for 80000800, the add for 3. */
    { "a signal with several readers gets the union",
      DESIGN(INPUT(32), EXTRACT(6, 0, 6), OUTPUT(6, 1, 0x3f), INPUT(32),
             KEEPING(0x80000800u, XOR, 32, 0, 3, 0, 0),
             OUTPUT(32, 4, 0xffffffffu), OF_TWO(ADD, 32, 0, 3),
             OUTPUT(32, 6, 2)),
      { 0x80000fc3u, 0x3f, 0x3f, 0x80000803u, 0xffffffffu, 0xffffffffu, 2,
        0xffffffffu } },
    /* The mux asks for 7c, the or that it reads keeps 70 of that, and so the
       difference asks for 7f. */
    { "a difference below an and, below an or, below a mux",
      DESIGN(INPUT(8), INPUT(8), OF_TWO(SUB, 8, 0, 1), INPUT(8),
             OF_TWO(AND, 8, 2, 3), KEEPING(0xf0, OR, 8, 4, 3, 0, 0), INPUT(1),
             ROW(MUX, 8, 6, 5, 3, 0), OUTPUT(8, 7, 0x7c)),
      { 0x7f, 0x7f, 0x70, 0x7c, 0x70, 0x7c, 1, 0x7c, 0xff } },
    /* The square asks for 0f, the concat for 40 above and 01 below. */
    { "a record that reads one signal twice",
      DESIGN(INPUT(8), OF_TWO(MUL, 8, 0, 0), OF_TWO(CONCAT, 16, 0, 0),
             OUTPUT(8, 1, 8), OUTPUT(16, 2, 0x4001)),
      { 0x4f, 8, 0x4001, 0xff, 0xffff } },
    { "a mux that also passes its selector on",
      DESIGN(INPUT(1), INPUT(1), ROW(MUX, 1, 0, 0, 1, 0), OUTPUT(1, 2, 1)),
      { 1, 1, 1, 1 } },
    { "a mux of which the top bit is read asks for its selector",
      DESIGN(INPUT(1), INPUT(8), INPUT(8), ROW(MUX, 8, 0, 1, 2, 0),
             OUTPUT(8, 3, 0x80)),
      { 1, 0x80, 0x80, 0x80, 0xff } },
    { "a mux that keeps nothing asks for nothing",
      DESIGN(INPUT(1), INPUT(8), INPUT(8), KEEPING(0, MUX, 8, 0, 1, 2, 0),
             OUTPUT(8, 3, 0xff)),
      { 0, 0, 0, 0xff, 0xff } },
    { "a mux that keeps other bits than those read asks for nothing",
      DESIGN(INPUT(1), INPUT(8), INPUT(8), KEEPING(0x0f, MUX, 8, 0, 1, 2, 0),
             OUTPUT(8, 3, 0xf0)),
      { 0, 0, 0, 0xf0, 0xff } },
    { "a mux below a register that keeps nothing",
      DESIGN(INPUT(1), INPUT(8), INPUT(8), ROW(MUX, 8, 0, 1, 2, 0),
             KEEPING(0, REGISTER, 8, 3, 0, 0, 0), OUTPUT(8, 4, 0xff)),
      { 0, 0, 0, 0, 0xff, 0xff } },
    { "the selector of a mux that nobody reads asks for nothing",
      DESIGN(INPUT(16), INPUT(16), OF_TWO(EQUAL, 1, 0, 1), INPUT(8),
             ROW(MUX, 8, 2, 3, 3, 0)),
      { 0, 0, 0, 0, 0 } },
    { "the same with an output of the mux",
      DESIGN(INPUT(16), INPUT(16), OF_TWO(EQUAL, 1, 0, 1), INPUT(8),
             ROW(MUX, 8, 2, 3, 3, 0), OUTPUT(8, 4, 0x18)),
      { 0xffff, 0xffff, 1, 0x18, 0x18, 0xff } },
    { "the same with a selector that is not kept",
      DESIGN(INPUT(16), INPUT(16), KEEPING(0, EQUAL, 1, 0, 1, 0, 0), INPUT(8),
             ROW(MUX, 8, 2, 3, 3, 0), OUTPUT(8, 4, 0x18)),
      { 0, 0, 1, 0x18, 0x18, 0xff } },
    { "a mode decoder for muxes of which nobody reads the last",
      DESIGN(INPUT(3), CONSTANT(3, 5), OF_TWO(EQUAL, 1, 0, 1),
             OF_TWO(BELOW, 1, 0, 1), EXTRACT(1, 0, 2), INPUT(16),
             ROW(MUX, 16, 2, 5, 5, 0), ROW(MUX, 16, 3, 6, 5, 0),
             ROW(MUX, 16, 4, 5, 7, 0)),
      { 0, 0, 0, 0, 0, 0, 0, 0, 0 } },
    /* The extract asks for bit 2 of the mode, the equal for nothing. */
    { "a mode decoder for one mux that is read and one that is not",
      DESIGN(INPUT(3), CONSTANT(3, 5), OF_TWO(EQUAL, 1, 0, 1),
             EXTRACT(1, 0, 2), INPUT(16), ROW(MUX, 16, 2, 4, 4, 0),
             ROW(MUX, 16, 3, 4, 4, 0), OUTPUT(16, 6, 0xff00)),
      { 4, 0, 0, 1, 0xff00, 0, 0xff00, 0xffff } },
    /* Each is the selector of the next one, and they share their operands. */
    { "a chain of muxes of which nobody reads the last",
      DESIGN(INPUT(1), INPUT(1), INPUT(1), ROW(MUX, 1, 0, 1, 2, 0),
             ROW(MUX, 1, 3, 2, 0, 0), ROW(MUX, 1, 4, 3, 1, 0), INPUT(8),
             ROW(MUX, 8, 5, 6, 6, 0)),
      { 0, 0, 0, 0, 0, 0, 0, 0 } },
    { "the same with an output of the last mux",
      DESIGN(INPUT(1), INPUT(1), INPUT(1), ROW(MUX, 1, 0, 1, 2, 0),
             ROW(MUX, 1, 3, 2, 0, 0), ROW(MUX, 1, 4, 3, 1, 0), INPUT(8),
             ROW(MUX, 8, 5, 6, 6, 0), OUTPUT(8, 7, 0x30)),
      { 1, 1, 1, 1, 1, 1, 0x30, 0x30, 0xff } },
    { "the same with an output of the second mux",
      DESIGN(INPUT(1), INPUT(1), INPUT(1), ROW(MUX, 1, 0, 1, 2, 0),
             ROW(MUX, 1, 3, 2, 0, 0), ROW(MUX, 1, 4, 3, 1, 0), INPUT(8),
             ROW(MUX, 8, 5, 6, 6, 0), OUTPUT(1, 4, 1)),
      { 1, 1, 1, 1, 1, 0, 0, 0, 1 } },
    { "an output that keeps nothing has all bits and asks for none",
      DESIGN(INPUT(8), OUTPUT(8, 0, 0)), { 0, 0xff } },
    { "a keep word leaves the mask of its own signal alone",
      DESIGN(KEEPING(0x0f, INPUT, 8, 0, 0, 0, 0), OUTPUT(8, 0, 0xff)),
      { 0xff, 0xff } },
    { "a keep word on the way cuts what goes further",
      DESIGN(INPUT(16), CONSTANT(16, 0x1234),
             KEEPING(0x0ff0, XOR, 16, 0, 1, 0, 0), EXTRACT(8, 2, 8),
             OUTPUT(8, 3, 0xff)),
      { 0x0f00, 0x0f00, 0xff00, 0xff, 0xff } },
    { "a sum in the high part of a word asks for the bits below its own",
      DESIGN(INPUT(8), INPUT(8), OF_TWO(ADD, 8, 0, 1), INPUT(8),
             OF_TWO(CONCAT, 16, 2, 3), OUTPUT(16, 4, 0x0400)),
      { 7, 7, 4, 0, 0x400, 0xffff } },
    { "a comparison in a part that is not asked for asks for nothing",
      DESIGN(INPUT(8), INPUT(8), OF_TWO(BELOW, 1, 0, 1), INPUT(1),
             OF_TWO(CONCAT, 2, 2, 3), OUTPUT(2, 4, 1)),
      { 0, 0, 0, 1, 1, 3 } },
    /* Of 3c the left shift by 3 has 38 from below, which is 7. */
    { "a left shift asks for nothing in the places that it fills",
      DESIGN(INPUT(8), ROW(LEFT_SHIFT, 8, 0, 0, 0, 3), OUTPUT(8, 1, 0x3c),
             ROW(LEFT_SHIFT, 8, 0, 0, 0, 3), OUTPUT(8, 3, 7)),
      { 7, 0x3c, 0xff, 7, 0xff } },
    /* Of 2c the right shift by 3 has 0c from above, which is 60; 60 of the
       other one is filled. */
    { "a right shift asks for nothing in the places that it fills",
      DESIGN(INPUT(8), ROW(RIGHT_SHIFT, 8, 0, 0, 0, 3), OUTPUT(8, 1, 0x2c),
             INPUT(8), ROW(RIGHT_SHIFT, 8, 3, 0, 0, 3), OUTPUT(8, 4, 0x60)),
      { 0x60, 0x2c, 0xff, 0, 0x60, 0xff } },
    /* The same bits: 60 of the other one are copies of the top bit. */
    { "a shift with copies of the top bit asks for it in their places",
      DESIGN(INPUT(8), ROW(ARITHMETIC_SHIFT, 8, 0, 0, 0, 3),
             OUTPUT(8, 1, 0x2c), INPUT(8),
             ROW(ARITHMETIC_SHIFT, 8, 3, 0, 0, 3), OUTPUT(8, 4, 0x60),
             INPUT(8), ROW(ARITHMETIC_SHIFT, 8, 6, 0, 0, 3),
             OUTPUT(8, 7, 0x0c)),
      { 0xe0, 0x2c, 0xff, 0x80, 0x60, 0xff, 0x60, 0x0c, 0xff } },
    /* An eighth of an angle of 12 bits does without its lowest three, and a
       comparison needs all. */
    { "a signed comparison asks for all bits of an angle, a shift for some",
      DESIGN(INPUT(12), ROW(ARITHMETIC_SHIFT, 12, 0, 0, 0, 3),
             OUTPUT(12, 1, 0xfff), INPUT(12), CONSTANT(12, 0x800),
             OF_TWO(SIGNED_BELOW, 1, 3, 4), OUTPUT(1, 5, 1)),
      { 0xff8, 0xfff, 0xfff, 0xfff, 0xfff, 1, 1 } },
    /* Bit 0 goes up by one place in each cycle and is read at bit 5. */
    { "a register that is shifted left by itself",
      DESIGN(REGISTER(8, 1, 1), ROW(LEFT_SHIFT, 8, 0, 0, 0, 1),
             OUTPUT(8, 0, 0x20)),
      { 0x3f, 0x3f, 0xff } },
    /* Bit 2 comes from bit 5, which comes from the top bit. */
    { "a register that is shifted right by itself and copies its top bit",
      DESIGN(REGISTER(8, 1, 0x80), ROW(ARITHMETIC_SHIFT, 8, 0, 0, 0, 3),
             OUTPUT(8, 0, 4)),
      { 0xa4, 0xa4, 0xff } },
    /* It asks itself for what it has already. */
    { "a register that reads itself and that nobody else reads",
      DESIGN(REGISTER(8, 0, 0)), { 0 } },
    { "a register that reads itself",
      DESIGN(REGISTER(8, 0, 0), OUTPUT(8, 0, 0x24)), { 0x24, 0xff } },
    { "a register that reads itself and keeps one bit",
      DESIGN(KEEPING(0x20, REGISTER, 8, 0, 0, 0, 0), OUTPUT(8, 0, 0x24)),
      { 0x24, 0xff } },
    /* Bit 3 hangs on bits 0 to 3 of the state and of the step. */
    { "a counter of which one bit is read",
      DESIGN(REGISTER(8, 2, 0), CONSTANT(8, 1), OF_TWO(ADD, 8, 0, 1),
             OUTPUT(8, 0, 8)),
      { 0xf, 0xf, 0xf, 0xff } },
    { "a counter behind a mux that holds it, and that nobody reads",
      DESIGN(INPUT(1), REGISTER(8, 4, 0), CONSTANT(8, 1),
             OF_TWO(ADD, 8, 1, 2), ROW(MUX, 8, 0, 3, 1, 0)),
      { 0, 0, 0, 0, 0 } },
    /* The mux is asked only after the register, which stands before it. */
    { "the same with one bit of the counter read",
      DESIGN(INPUT(1), REGISTER(8, 4, 0), CONSTANT(8, 1),
             OF_TWO(ADD, 8, 1, 2), ROW(MUX, 8, 0, 3, 1, 0), OUTPUT(8, 1, 8)),
      { 1, 0xf, 0xf, 0xf, 0xf, 0xff } },
    { "a register that selects what it loads and that nobody else reads",
      DESIGN(REGISTER(1, 2, 0), INPUT(1), ROW(MUX, 1, 0, 1, 1, 0)),
      { 0, 0, 0 } },
    { "two registers that read each other, one of them read",
      DESIGN(REGISTER(8, 1, 1), REGISTER(8, 0, 2), OUTPUT(8, 0, 0x81)),
      { 0x81, 0x81, 0xff } }
};

/* File, list and answer are all written out, so that a slip in the tests'
   own reader and writer shows. */
static void ramp_in_bytes(void)
{
    struct known known;
    size_t i;

    test_begin("example: ramp, file and list byte by byte");
    known = known_file(&masks_operation, ramp_bytes, RAMP_BYTES);
    demand_answer(known.answer, 0x000000c000000070u);
    for (i = 0; i < 8 * 7; i++)
        if (known.lent.of[1].bytes[i] != (i % 8 < 2 ? 255 : 0))
            test_fail();
    test_end();
}

int main(int argc, char **argv)
{
    uint64_t seed = options_begin(argc, argv);

    ramp_in_bytes();
    try_examples(&masks_operation, expect_masks);
    try_worked(&masks_operation, worked, sizeof worked / sizeof *worked,
               expect_masks);
    masks_grid();
    masks_moved();
    masks_constants();
    masks_feedback();
    masks_chains();
    masks_rings();
    masks_loops();
    masks_least();
    masks_columns();
    masks_drawn(seed);
    printf("%lu files tried\n", trials_made());
    return tests_end() ? 0 : 1;
}
