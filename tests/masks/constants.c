/* And and or with a constant: designs by hand, single bits, and exactness.
   Assumes masks that were worked out from the paper, not by the model. */

#include "../harness/known.h"
#include "../harness/operations.h"
#include "../harness/report.h"
#include "exact.h"
#include "parts.h"

/* The widest constant of which every k and every keep word are tried. */
enum { EVERY = 4 };

/* A constant of 8 bits that does not keep all of its k. */
#define CUT_CONSTANT(keep, k) KEEPING(keep, CONSTANT, 8, 0, 0, 0, k)

/* Designs and their masks. */
static const struct worked worked[] = {
    { "a status word is asked for what an and with a constant leaves of it",
      DESIGN(INPUT(8), CONSTANT(8, 0x3c), OF_TWO(AND, 8, 0, 1),
             OUTPUT(8, 2, 0xff)),
      { 0x3c, 0xff, 0xff, 0xff } },
    { "the same with the constant as a",
      DESIGN(INPUT(8), CONSTANT(8, 0x3c), OF_TWO(AND, 8, 1, 0),
             OUTPUT(8, 2, 0xff)),
      { 0x3c, 0xff, 0xff, 0xff } },
    { "a status word is asked for what an or with a constant leaves of it",
      DESIGN(INPUT(8), CONSTANT(8, 0x3c), OF_TWO(OR, 8, 0, 1),
             OUTPUT(8, 2, 0xff)),
      { 0xc3, 0xff, 0xff, 0xff } },
    { "the same with the constant as a, before the status word",
      DESIGN(CONSTANT(8, 0x3c), INPUT(8), OF_TWO(OR, 8, 0, 1),
             OUTPUT(8, 2, 0xff)),
      { 0xff, 0xc3, 0xff, 0xff } },
    /* Of fa the and keeps 1a: the constant has that, the input 18 of it. */
    { "an and of which some bits are kept and some are asked for",
      DESIGN(INPUT(8), CONSTANT(8, 0x3c), KEEPING(0x1f, AND, 8, 0, 1, 0, 0),
             OUTPUT(8, 2, 0xfa)),
      { 0x18, 0x1a, 0xfa, 0xff } },
    { "an or of which some bits are kept and some are asked for",
      DESIGN(INPUT(8), CONSTANT(8, 0x3c), KEEPING(0x1f, OR, 8, 1, 0, 0, 0),
             OUTPUT(8, 2, 0xfa)),
      { 0x02, 0x1a, 0xfa, 0xff } },
    /* Its value is 0c. */
    { "an and with a constant that keeps some of its bits",
      DESIGN(INPUT(8), CUT_CONSTANT(0x0f, 0x3c), OF_TWO(AND, 8, 0, 1),
             OUTPUT(8, 2, 0xff)),
      { 0x0c, 0xff, 0xff, 0xff } },
    { "an or with a constant that keeps some of its bits",
      DESIGN(INPUT(8), CUT_CONSTANT(0x0f, 0x3c), OF_TWO(OR, 8, 0, 1),
             OUTPUT(8, 2, 0xff)),
      { 0xf3, 0xff, 0xff, 0xff } },
    { "an and with a constant that keeps nothing",
      DESIGN(INPUT(8), CUT_CONSTANT(0, 0xff), OF_TWO(AND, 8, 0, 1),
             OUTPUT(8, 2, 0xff)),
      { 0, 0xff, 0xff, 0xff } },
    { "an or with a constant that keeps nothing",
      DESIGN(INPUT(8), CUT_CONSTANT(0, 0xff), OF_TWO(OR, 8, 1, 0),
             OUTPUT(8, 2, 0xff)),
      { 0xff, 0xff, 0xff, 0xff } },
    { "an and with 0 and an or with all ones leave nothing",
      DESIGN(INPUT(8), CONSTANT(8, 0), CONSTANT(8, 0xff),
             OF_TWO(AND, 8, 0, 1), OF_TWO(OR, 8, 2, 0), OUTPUT(8, 3, 0x7e),
             OUTPUT(8, 4, 0xe7)),
      { 0, 0x7e, 0xe7, 0x7e, 0xe7, 0xff, 0xff } },
    { "an and with all ones and an or with 0 leave all",
      DESIGN(INPUT(8), CONSTANT(8, 0xff), CONSTANT(8, 0),
             OF_TWO(AND, 8, 0, 1), OF_TWO(OR, 8, 2, 0), OUTPUT(8, 3, 0x06),
             OUTPUT(8, 4, 0x60)),
      { 0x66, 0x06, 0x60, 0x06, 0x60, 0xff, 0xff } },
    { "an and and an or with a constant of 64 bits",
      DESIGN(INPUT(64), CONSTANT(64, 0x8000000180000001u), INPUT(64),
             OF_TWO(AND, 64, 0, 1), OF_TWO(OR, 64, 1, 2),
             OUTPUT(64, 3, FULL(64)), OUTPUT(64, 4, FULL(64))),
      { 0x8000000180000001u, FULL(64), 0x7ffffffe7ffffffeu, FULL(64),
        FULL(64), FULL(64), FULL(64) } },
    { "an and and an or with a constant that nobody reads",
      DESIGN(INPUT(8), CONSTANT(8, 0x3c), OF_TWO(AND, 8, 0, 1),
             OF_TWO(OR, 8, 1, 0)),
      { 0, 0, 0, 0 } },
    { "an and of two constants asks both for D",
      DESIGN(CONSTANT(8, 0x3c), CONSTANT(8, 0x0f), OF_TWO(AND, 8, 0, 1),
             OUTPUT(8, 2, 0x7e)),
      { 0x7e, 0x7e, 0x7e, 0xff } },
    { "an or of two constants, one of which keeps nothing, asks both for D",
      DESIGN(CONSTANT(8, 0x3c), CUT_CONSTANT(0, 0xff), OF_TWO(OR, 8, 0, 1),
             OUTPUT(8, 2, 0x7e)),
      { 0x7e, 0x7e, 0x7e, 0xff } },
    { "an and of a constant with itself asks it for D",
      DESIGN(CONSTANT(8, 0x3c), OF_TWO(AND, 8, 0, 0), OUTPUT(8, 1, 0x7e)),
      { 0x7e, 0x7e, 0xff } },
    { "an or of a constant with itself asks it for D",
      DESIGN(CONSTANT(8, 0x3c), OF_TWO(OR, 8, 0, 0), OUTPUT(8, 1, 0x7e)),
      { 0x7e, 0x7e, 0xff } },
    { "a register that loads a constant is none",
      DESIGN(CONSTANT(8, 0x3c), REGISTER(8, 0, 0x3c), INPUT(8),
             OF_TWO(AND, 8, 2, 1), OUTPUT(8, 3, 0xff)),
      { 0xff, 0xff, 0xff, 0xff, 0xff } },
    { "a register that reads itself is no constant",
      DESIGN(REGISTER(8, 0, 0x3c), INPUT(8), OF_TWO(AND, 8, 1, 0),
             OF_TWO(OR, 8, 0, 1), OUTPUT(8, 2, 0xf0), OUTPUT(8, 3, 0x0f)),
      { 0xff, 0xff, 0xf0, 0x0f, 0xff, 0xff } },
    { "an extract of a constant is none",
      DESIGN(CONSTANT(16, 0x3c3c), EXTRACT(8, 0, 4), INPUT(8),
             OF_TWO(AND, 8, 1, 2), OF_TWO(OR, 8, 2, 1), OUTPUT(8, 3, 0xf0),
             OUTPUT(8, 4, 0x0f)),
      { 0xff0, 0xff, 0xff, 0xf0, 0x0f, 0xff, 0xff } },
    { "an and of two constants is none",
      DESIGN(CONSTANT(8, 0x3c), CONSTANT(8, 0x0f), OF_TWO(AND, 8, 0, 1),
             INPUT(8), OF_TWO(AND, 8, 3, 2), OUTPUT(8, 4, 0xff)),
      { 0xff, 0xff, 0xff, 0xff, 0xff, 0xff } },
    { "an input that keeps nothing is no constant",
      DESIGN(KEEPING(0, INPUT, 8, 0, 0, 0, 0), INPUT(8), OF_TWO(AND, 8, 0, 1),
             OUTPUT(8, 2, 0xff)),
      { 0xff, 0xff, 0xff, 0xff } },
    /* The second and asks the first for 3c3c. */
    { "a status word cut twice",
      DESIGN(INPUT(16), CONSTANT(16, 0x0ff0), OF_TWO(AND, 16, 0, 1),
             CONSTANT(16, 0x3c3c), OF_TWO(AND, 16, 3, 2),
             OUTPUT(16, 4, 0xffff)),
      { 0x0c30, 0x3c3c, 0x3c3c, 0xffff, 0xffff, 0xffff } },
    { "a status word that is cut, and then has bits set",
      DESIGN(INPUT(16), CONSTANT(16, 0x0ff0), OF_TWO(AND, 16, 0, 1),
             CONSTANT(16, 0x3c3c), OF_TWO(OR, 16, 2, 3),
             OUTPUT(16, 4, 0xffff)),
      { 0x03c0, 0xc3c3, 0xc3c3, 0xffff, 0xffff, 0xffff } },
    /* The and asks the constant for c0, the sum for 7. */
    { "a constant and a status word that an and and a sum read",
      DESIGN(INPUT(8), CONSTANT(8, 0x75), KEEPING(0xc0, AND, 8, 0, 1, 0, 0),
             OUTPUT(8, 2, 0xff), OF_TWO(ADD, 8, 0, 1), OUTPUT(8, 4, 4)),
      { 0x47, 0xc7, 0xff, 0xff, 4, 0xff } },
    { "one constant for an and and for an or of the same word",
      DESIGN(INPUT(8), CONSTANT(8, 0x3c), OF_TWO(AND, 8, 0, 1),
             OF_TWO(OR, 8, 1, 0), OUTPUT(8, 2, 0xff), OUTPUT(8, 3, 0x0f)),
      { 0x3f, 0xff, 0xff, 0x0f, 0xff, 0xff } },
    /* Bit 5 comes from 4, that from 3, that from 2, which the and clears. */
    { "a bit that goes round by a register until an and clears it",
      DESIGN(REGISTER(8, 3, 0), ROW(LEFT_SHIFT, 8, 0, 0, 0, 1),
             CONSTANT(8, 0xf8), OF_TWO(AND, 8, 1, 2), OUTPUT(8, 0, 0x20)),
      { 0x3c, 0x38, 0x3c, 0x3c, 0xff } }
};

/* An input and a constant, which is b or else a of a record of this kind, and
   an output of all its bits. */
static void make_masked(struct netlist *net, uint8_t kind, unsigned width,
                        uint32_t a, uint64_t k)
{
    netlist_clear(net);
    netlist_input(net, (uint8_t)width);
    netlist_add(net, KIND_CONSTANT, (uint8_t)width, 0, 0, 0, k);
    netlist_add(net, kind, (uint8_t)width, a, 1 - a, 0, 0);
    netlist_output(net, 2, width_mask(width));
}

/* A constant of one bit: an and asks for this bit, an or for all others. */
static void try_single(uint8_t kind, unsigned width)
{
    static struct netlist net;
    uint64_t full = width_mask(width), masks[4] = { 0, full, full, full };
    unsigned bit;
    uint32_t a;

    for (bit = 0; bit < width; bit++)
        for (a = 0; a < 2; a++) {
            uint64_t one = (uint64_t)1 << bit;

            masks[SOURCE] = kind == KIND_AND ? one : full ^ one;
            make_masked(&net, kind, width, a, one);
            expect_masks(&masks_operation, &net, masks);
        }
}

/* Every k and every keep word of the constant, in either place. */
static void try_every_constant(uint8_t kind, unsigned width)
{
    static struct netlist net;
    uint64_t k, keep, full = width_mask(width);
    uint32_t a;

    for (a = 0; a < 2; a++)
        for (k = 0; k <= full; k++)
            for (keep = 0; keep <= full; keep++) {
                make_masked(&net, kind, width, a, k);
                net.records[1].keep = keep;
                try_every_demand(&net);
            }
}

void masks_constants(void)
{
    static const char *const names[2][2] = {
        { "an and with a constant of one bit, at every width and place",
          "every and with a constant up to 4 bits asks for what can change its"
          " D" },
        { "an or with a constant of one bit, at every width and place",
          "every or with a constant up to 4 bits asks for what can change its"
          " D" }
    };
    unsigned kind, width;

    try_worked(&masks_operation, worked, sizeof worked / sizeof *worked,
               expect_masks);
    for (kind = KIND_AND; kind <= KIND_OR; kind++) {
        test_begin(names[kind - KIND_AND][0]);
        for (width = 1; width <= WIDTH_LIMIT; width++)
            try_single((uint8_t)kind, width);
        test_end();
        test_begin(names[kind - KIND_AND][1]);
        for (width = 1; width <= EVERY; width++)
            try_every_constant((uint8_t)kind, width);
        test_end();
    }
}
