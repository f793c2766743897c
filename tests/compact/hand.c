/* Designs by hand, their masks, and the records of their compacted files.
   Assumes numbers worked out from the paper, and not by a program. */

#include <stdio.h>
#include <string.h>

#include "../harness/known.h"
#include "../harness/operations.h"
#include "../harness/report.h"
#include "../harness/trial.h"
#include "halved.h"
#include "parts.h"

/* A survivor with mask 0, once it is a constant. */
#define EMPTIED(w) KEEPING(0, CONSTANT, w, 0, 0, 0, 0)
#define UNREAD_INPUT(w) KEEPING(0, INPUT, w, 0, 0, 0, 0)

/* A design with its masks, and what is left of it. */
static const struct example {
    struct worked before;
    const struct record *left;
    size_t count;
} examples[] = {
    { { "by hand: an input that nobody reads stays",
        DESIGN(INPUT(8), INPUT(4), OUTPUT(8, 0, 0xff)), { 0xff, 0, 0xff } },
      DESIGN(INPUT(8), UNREAD_INPUT(4), OUTPUT(8, 0, 0xff)) },
    { { "by hand: a constant, a sum and a register that nobody reads go",
        DESIGN(CONSTANT(8, 5), INPUT(8), OF_TWO(ADD, 8, 0, 1),
               OUTPUT(8, 1, 0xff), REGISTER(8, 2, 9)),
        { 0, 0xff, 0, 0xff, 0 } },
      DESIGN(INPUT(8), OUTPUT(8, 0, 0xff)) },
    { { "by hand: nothing goes, and keep words are trimmed",
        DESIGN(INPUT(8), CONSTANT(8, 0x3c), OF_TWO(AND, 8, 0, 1),
               REGISTER(8, 2, 0xa5), OUTPUT(8, 3, 0x1f)),
        { 0x1c, 0x1f, 0x1f, 0x1f, 0xff } },
      DESIGN(KEEPING(0x1c, INPUT, 8, 0, 0, 0, 0),
             KEEPING(0x1f, CONSTANT, 8, 0, 0, 0, 0x3c),
             KEEPING(0x1f, AND, 8, 0, 1, 0, 0),
             KEEPING(0x1f, REGISTER, 8, 2, 0, 0, 0xa5),
             OUTPUT(8, 3, 0x1f)) },
    { { "by hand: without outputs only inputs are left",
        DESIGN(REGISTER(8, 2, 0), INPUT(8), OF_TWO(ADD, 8, 0, 1), INPUT(1)),
        { 0, 0, 0, 0 } },
      DESIGN(UNREAD_INPUT(8), UNREAD_INPUT(1)) },
    { { "by hand: without inputs and outputs nothing is left",
        DESIGN(REGISTER(8, 2, 7), CONSTANT(8, 1), OF_TWO(ADD, 8, 0, 1)),
        { 0, 0, 0 } },
      NULL, 0 },
    { { "by hand: no records", NULL, 0, { 0 } }, NULL, 0 },
    { { "by hand: an output that keeps nothing holds what it names",
        DESIGN(INPUT(8), OF_TWO(XOR, 8, 0, 0), OUTPUT(8, 1, 0)),
        { 0, 0, 0xff } },
      DESIGN(UNREAD_INPUT(8), EMPTIED(8), OUTPUT(8, 1, 0)) },
    { { "by hand: an output that keeps nothing of an input",
        DESIGN(CONSTANT(3, 2), INPUT(8), OUTPUT(8, 1, 0)), { 0, 0, 0xff } },
      DESIGN(UNREAD_INPUT(8), OUTPUT(8, 0, 0)) },
    { { "by hand: an output that keeps nothing of a register",
        DESIGN(REGISTER(8, 2, 0x77), OUTPUT(8, 0, 0), CONSTANT(8, 1)),
        { 0, 0xff, 0 } },
      DESIGN(EMPTIED(8), OUTPUT(8, 0, 0)) },
    { { "by hand: an and with a constant 0 makes a register a constant",
        DESIGN(INPUT(8), REGISTER(8, 0, 0x5a), CONSTANT(8, 0),
               OF_TWO(AND, 8, 1, 2), OUTPUT(8, 3, 0xff)),
        { 0, 0, 0xff, 0xff, 0xff } },
      DESIGN(UNREAD_INPUT(8), EMPTIED(8), CONSTANT(8, 0),
             OF_TWO(AND, 8, 1, 2), OUTPUT(8, 3, 0xff)) },
    /* Of the bits that the output keeps, the constant decides all. */
    { { "by hand: an or with a constant makes a mux a constant",
        DESIGN(INPUT(1), CONSTANT(8, 0xf3), INPUT(8),
               ROW(MUX, 8, 0, 2, 1, 0), CONSTANT(8, 0x3f),
               OF_TWO(OR, 8, 4, 3), OUTPUT(8, 5, 0x1e)),
        { 0, 0, 0, 0, 0x1e, 0x1e, 0xff } },
      DESIGN(UNREAD_INPUT(1), UNREAD_INPUT(8), EMPTIED(8),
             KEEPING(0x1e, CONSTANT, 8, 0, 0, 0, 0x3f),
             KEEPING(0x1e, OR, 8, 3, 2, 0, 0), OUTPUT(8, 4, 0x1e)) },
    /* The difference is named still, what it names is not any more. */
    { { "by hand: a chain that only an emptied record names goes",
        DESIGN(INPUT(8), OF_TWO(XOR, 8, 0, 0), OF_TWO(ADD, 8, 1, 1),
               OF_TWO(SUB, 8, 2, 1), CONSTANT(8, 0), OF_TWO(AND, 8, 4, 3),
               OUTPUT(8, 5, 0xff)),
        { 0, 0, 0, 0, 0xff, 0xff, 0xff } },
      DESIGN(UNREAD_INPUT(8), EMPTIED(8), CONSTANT(8, 0),
             OF_TWO(AND, 8, 2, 1), OUTPUT(8, 3, 0xff)) },
    { { "by hand: a constant with mask 0 that is named still",
        DESIGN(CONSTANT(8, 0xab), KEEPING(0, REGISTER, 8, 0, 0, 0, 0x11),
               OUTPUT(8, 1, 0xff)),
        { 0, 0xff, 0xff } },
      DESIGN(EMPTIED(8), KEEPING(0, REGISTER, 8, 0, 0, 0, 0x11),
             OUTPUT(8, 1, 0xff)) },
    { { "by hand: a constant that nobody names goes",
        DESIGN(CONSTANT(8, 0xab), CONSTANT(8, 0xcd), OUTPUT(8, 1, 0xf0)),
        { 0, 0xf0, 0xff } },
      DESIGN(KEEPING(0xf0, CONSTANT, 8, 0, 0, 0, 0xcd), OUTPUT(8, 0, 0xf0)) },
    /* Its mask is not 0, so it names all three, though it asks for nothing. */
    { { "by hand: a mux that keeps nothing holds what it names",
        DESIGN(CONSTANT(1, 1), CONSTANT(8, 3), OF_TWO(ADD, 8, 1, 1),
               REGISTER(8, 2, 4), KEEPING(0, MUX, 8, 0, 2, 3, 0),
               OUTPUT(8, 4, 0x0f)),
        { 0, 0, 0, 0, 0x0f, 0xff } },
      DESIGN(EMPTIED(1), EMPTIED(8), EMPTIED(8),
             KEEPING(0, MUX, 8, 0, 1, 2, 0), OUTPUT(8, 3, 0x0f)) },
    { { "by hand: a mux gets new numbers for all three",
        DESIGN(CONSTANT(8, 1), INPUT(1), CONSTANT(8, 2), INPUT(8),
               CONSTANT(8, 3), INPUT(8), ROW(MUX, 8, 1, 3, 5, 0),
               OUTPUT(8, 6, 0xff)),
        { 0, 1, 0, 0xff, 0, 0xff, 0xff, 0xff } },
      DESIGN(INPUT(1), INPUT(8), INPUT(8), ROW(MUX, 8, 0, 1, 2, 0),
             OUTPUT(8, 3, 0xff)) },
    { { "by hand: a register that names a later record",
        DESIGN(REGISTER(8, 4, 0x21), CONSTANT(8, 7), OUTPUT(8, 0, 0xff),
               INPUT(8), OF_TWO(XOR, 8, 0, 3)),
        { 0xff, 0, 0xff, 0xff, 0xff } },
      DESIGN(REGISTER(8, 3, 0x21), OUTPUT(8, 0, 0xff), INPUT(8),
             OF_TWO(XOR, 8, 0, 2)) },
    { { "by hand: a register that names itself, and one that nobody reads",
        DESIGN(REGISTER(8, 0, 1), REGISTER(8, 1, 2), OUTPUT(8, 1, 0x0f)),
        { 0, 0x0f, 0xff } },
      DESIGN(KEEPING(0x0f, REGISTER, 8, 0, 0, 0, 2), OUTPUT(8, 0, 0x0f)) },
    { { "by hand: two registers that name each other, and two unread ones",
        DESIGN(REGISTER(8, 1, 1), REGISTER(8, 0, 2), REGISTER(8, 3, 3),
               REGISTER(8, 2, 4), OUTPUT(8, 3, 0xff)),
        { 0, 0, 0xff, 0xff, 0xff } },
      DESIGN(REGISTER(8, 1, 3), REGISTER(8, 0, 4), OUTPUT(8, 1, 0xff)) },
    { { "by hand: extracts and shifts have their places still",
        DESIGN(CONSTANT(8, 1), INPUT(8), ROW(RIGHT_SHIFT, 8, 1, 0, 0, 2),
               EXTRACT(4, 2, 1), OUTPUT(4, 3, 0xf)),
        { 0, 0x78, 0x1e, 0xf, 0xf } },
      DESIGN(KEEPING(0x78, INPUT, 8, 0, 0, 0, 0),
             KEEPING(0x1e, RIGHT_SHIFT, 8, 0, 0, 0, 2), EXTRACT(4, 1, 1),
             OUTPUT(4, 2, 0xf)) },
    { { "by hand: keep words of 64 bits, of which all bytes differ",
        DESIGN(CONSTANT(64, 0x1122334455667788u),
               KEEPING(0xf1e2d3c4b5a69788u, INPUT, 64, 0, 0, 0, 0),
               OUTPUT(64, 1, 0x0123456789abcdefu)),
        { 0, 0x0123456789abcdefu, ~(uint64_t)0 } },
      DESIGN(KEEPING(0x0122414481a28588u, INPUT, 64, 0, 0, 0, 0),
             OUTPUT(64, 0, 0x0123456789abcdefu)) },
    { { "by hand: masks that have bit 63 alone",
        DESIGN(INPUT(64), OF_TWO(XOR, 64, 0, 0), REGISTER(64, 1, 1),
               OUTPUT(64, 2, 0x8000000000000000u)),
        { 0x8000000000000000u, 0x8000000000000000u, 0x8000000000000000u,
          ~(uint64_t)0 } },
      DESIGN(KEEPING(0x8000000000000000u, INPUT, 64, 0, 0, 0, 0),
             KEEPING(0x8000000000000000u, XOR, 64, 0, 0, 0, 0),
             KEEPING(0x8000000000000000u, REGISTER, 64, 1, 0, 0, 1),
             OUTPUT(64, 2, 0x8000000000000000u)) },
    { { "by hand: inputs and outputs stay in their order",
        DESIGN(INPUT(1), OUTPUT(1, 0, 1), CONSTANT(2, 3), INPUT(3),
               OUTPUT(2, 2, 1), OUTPUT(3, 3, 0), INPUT(4)),
        { 1, 1, 1, 0, 3, 7, 0 } },
      DESIGN(INPUT(1), OUTPUT(1, 0, 1), KEEPING(1, CONSTANT, 2, 0, 0, 0, 3),
             UNREAD_INPUT(3), OUTPUT(2, 2, 1), OUTPUT(3, 3, 0),
             UNREAD_INPUT(4)) },
    { { "by hand: an emptied record of 64 bits, named twice",
        DESIGN(CONSTANT(64, 0xfedcba9876543210u), OUTPUT(64, 0, 0),
               OUTPUT(64, 0, 0)),
        { 0, ~(uint64_t)0, ~(uint64_t)0 } },
      DESIGN(EMPTIED(64), OUTPUT(64, 0, 0), OUTPUT(64, 0, 0)) }
};

/* The masks, the new length, and each byte of the new file. */
static void expect_example(const struct example *example)
{
    static struct netlist before, left;
    static struct file file;
    struct worked rest = { NULL, example->left, example->count, { 0 } };
    struct known known;

    worked_make(&before, &example->before);
    worked_make(&left, &rest);
    netlist_write(&left, &file);
    known = known_call(&compact_operation, &before);
    demand_answer(known.answer, file.length);
    demand_words("mask list", &known.lent.of[1], example->before.words,
                 before.count);
    if (memcmp(known.lent.of[2].bytes, file.bytes, file.length) != 0
        && test_fail())
        printf("      another file is written\n");
}

static void expect_halved(void)
{
    static struct netlist net;
    struct known known;
    uint32_t i;

    halved_make(&net);
    known = known_call(&compact_operation, &net);
    demand_answer(known.answer, HEADER_BYTES + RECORD_BYTES * HALVED_LEFT);
    for (i = 0; i < HALVED_REGISTERS; i++) {
        struct record record = read_record(known.lent.of[2].bytes, i);

        if ((record.k != i || record.operand[0] != (i + 1) % HALVED_REGISTERS)
            && test_fail())
            printf("      record %u is another one\n", (unsigned)i);
    }
}

void compact_by_hand(void)
{
    unsigned i;

    for (i = 0; i < sizeof examples / sizeof *examples; i++) {
        test_begin(examples[i].before.name);
        expect_example(&examples[i]);
        test_end();
    }
    test_begin("by hand: every second of 2,048 records goes");
    expect_halved();
    test_end();
}
