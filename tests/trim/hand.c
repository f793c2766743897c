/* Lists of masks by hand: accepted ones with what they give, and refused ones.
   Assumes numbers worked out from the care rules, and not by a program. */

#include "../harness/known.h"
#include "../harness/report.h"
#include "../harness/trial.h"
#include "by_list.h"
#include "parts.h"

/* A design and a list, the answer, and the keep words of the file written. */
static const struct accepted {
    struct worked list;
    uint64_t answer, keeps[9];
} accepted[] = {
    /* All bits of the sum's operands below bit 17 have a place in it. */
    { { "by hand: a ramp with bit 16 of the sum kept as well",
        DESIGN(INPUT(32), INPUT(32), INPUT(32), OF_TWO(MUL, 32, 0, 1),
               OF_TWO(ADD, 32, 3, 2), EXTRACT(16, 4, 0),
               OUTPUT(16, 5, 0xffff)),
        { 0x1ffff, 0x1ffff, 0x1ffff, 0x1ffff, 0x1ffff, 0xffff, 0xffff } },
      0x000000c000000075u,
      { 0x1ffff, 0x1ffff, 0x1ffff, 0x1ffff, 0x1ffff, 0xffff, 0xffff } },
    { { "by hand: a counter that nobody reads, nothing of it kept",
        DESIGN(REGISTER(8, 2, 0), CONSTANT(8, 1), OF_TWO(ADD, 8, 0, 1)),
        { 0, 0, 0 } },
      0x0000001800000000u, { 0, 0, 0 } },
    { { "by hand: the same with its low four bits kept",
        DESIGN(REGISTER(8, 2, 0), CONSTANT(8, 1), OF_TWO(ADD, 8, 0, 1)),
        { 0x0f, 0x0f, 0x0f } },
      0x000000180000000cu, { 0x0f, 0x0f, 0x0f } },
    /* The sum asks for bits 0 to 3; the register asks it for bit 3 alone. */
    { { "by hand: the same with a sum of which only bit 3 is kept",
        DESIGN(KEEPING(8, REGISTER, 8, 2, 0, 0, 0), CONSTANT(8, 1),
               OF_TWO(ADD, 8, 0, 1)),
        { 0x0f, 0x0f, 8 } },
      0x0000001800000009u, { 8, 0x0f, 8 } },
    { { "by hand: the same with all bits kept",
        DESIGN(REGISTER(8, 2, 0), CONSTANT(8, 1), OF_TWO(ADD, 8, 0, 1)),
        { 0xff, 0xff, 0xff } },
      0x0000001800000018u, { 0xff, 0xff, 0xff } },
    /* The or keeps 97 of 9f, for which it asks. */
    { { "by hand: keep words that are neither full nor the list's masks",
        DESIGN(KEEPING(0x3c, INPUT, 8, 0, 0, 0, 0),
               KEEPING(0, INPUT, 8, 0, 0, 0, 0),
               KEEPING(0xf7, OR, 8, 0, 1, 0, 0), OUTPUT(8, 2, 0x1f)),
        { 0x97, 0x97, 0x9f, 0xff } },
      0x0000002000000018u, { 0x14, 0, 0x97, 0x1f } },
    { { "by hand: words of 64 bits, of which all bytes differ",
        DESIGN(KEEPING(0xf1e2d3c4b5a69788u, INPUT, 64, 0, 0, 0, 0),
               OUTPUT(64, 0, 0x0123456789abcdefu)),
        { 0x8123456789abcdefu, 0xffffffffffffffffu } },
      0x0000008000000061u, { 0x8122414481a28588u, 0x0123456789abcdefu } },
    { { "by hand: a register that keeps nothing asks for nothing",
        DESIGN(INPUT(8), KEEPING(0, REGISTER, 8, 0, 0, 0, 0x5a),
               OUTPUT(8, 1, 0xff)),
        { 0, 0xff, 0xff } },
      0x0000001800000010u, { 0, 0, 0xff } },
    { { "by hand: a bit that a register clears is not asked of its a",
        DESIGN(KEEPING(0xfe, REGISTER, 8, 2, 0, 0, 0), OUTPUT(8, 0, 0xff),
               INPUT(8)),
        { 0xff, 0xff, 0xfe } },
      0x0000001800000017u, { 0xfe, 0xff, 0xfe } },
    { { "by hand: two registers keep two bits for each other",
        DESIGN(REGISTER(8, 1, 1), REGISTER(8, 0, 2)), { 0x81, 0x81 } },
      0x0000001000000004u, { 0x81, 0x81 } },
    { { "by hand: a mux with D 0 asks for no selector",
        DESIGN(INPUT(1), INPUT(8), INPUT(8), KEEPING(0x0f, MUX, 8, 0, 1, 2, 0)),
        { 0, 0, 0, 0xf0 } },
      0x0000001900000004u, { 0, 0, 0, 0 } },
    { { "by hand: a shift asks for the top bit where copies of it are kept",
        DESIGN(INPUT(8), ROW(ARITHMETIC_SHIFT, 8, 0, 0, 0, 4),
               OUTPUT(8, 1, 0xc6)),
        { 0xe0, 0xc6, 0xff } },
      0x000000180000000fu, { 0xe0, 0xc6, 0xc6 } },
    { { "by hand: an and asks for what its constant leaves open",
        DESIGN(INPUT(8), CONSTANT(8, 0x3c), OF_TWO(AND, 8, 0, 1),
               OUTPUT(8, 2, 0xff)),
        { 0x3c, 0xff, 0xff, 0xff } },
      0x000000200000001cu, { 0x3c, 0xff, 0xff, 0xff } },
    { { "by hand: an or asks for what its constant leaves open",
        DESIGN(INPUT(8), CONSTANT(8, 0x18), OF_TWO(OR, 8, 1, 0),
               OUTPUT(8, 2, 0xff)),
        { 0xe7, 0xff, 0xff, 0xff } },
      0x000000200000001eu, { 0xe7, 0xff, 0xff, 0xff } }
};

/* A design, a list, and the record at which 14 refuses it. */
static const struct refused {
    struct worked list;
    uint32_t record;
} refused[] = {
    { { "by hand: an output lacks a bit, though its keep word clears it",
        DESIGN(INPUT(8), OUTPUT(8, 0, 0x0f)), { 0x0f, 0x7f } }, 1 },
    { { "by hand: an output's a lacks a bit",
        DESIGN(INPUT(8), OUTPUT(8, 0, 0x0f)), { 0x0e, 0xff } }, 0 },
    { { "by hand: a register's a lacks a bit, and stands behind it",
        DESIGN(REGISTER(8, 2, 0), OUTPUT(8, 0, 0xff), INPUT(8)),
        { 0xff, 0xff, 0xfe } }, 2 },
    { { "by hand: a register's a lacks a bit that nobody else asks",
        DESIGN(REGISTER(8, 1, 1), REGISTER(8, 0, 2)), { 0x81, 0x80 } }, 1 },
    { { "by hand: two registers, each lacks what the other asks",
        DESIGN(REGISTER(8, 1, 1), REGISTER(8, 0, 2)), { 0x81, 0x42 } }, 0 },
    { { "by hand: of two operands both lack a bit",
        DESIGN(INPUT(8), INPUT(8), OF_TWO(XOR, 8, 0, 1), OUTPUT(8, 2, 0xff)),
        { 0xfe, 0x7f, 0xff, 0xff } }, 0 },
    { { "by hand: of two operands the second lacks a bit",
        DESIGN(INPUT(8), INPUT(8), OF_TWO(XOR, 8, 0, 1), OUTPUT(8, 2, 0xff)),
        { 0xff, 0x7f, 0xff, 0xff } }, 1 },
    /* The input has what the xor asks with its own mask in the list. */
    { { "by hand: a mask that lacks a bit does not ask for it",
        DESIGN(INPUT(8), INPUT(8), OF_TWO(XOR, 8, 0, 1), OUTPUT(8, 2, 0xff)),
        { 0x7f, 0x7f, 0x7f, 0xff } }, 2 },
    { { "by hand: a bit outside a width below one that is lacking",
        DESIGN(INPUT(8), INPUT(8), OUTPUT(8, 1, 0xff)),
        { 0x100, 0xfe, 0xff } }, 0 },
    { { "by hand: a bit outside a width above one that is lacking",
        DESIGN(INPUT(8), INPUT(8), OUTPUT(8, 0, 0xff)),
        { 0xfe, 0x100, 0xff } }, 0 },
    { { "by hand: a bit just outside the width of an output",
        DESIGN(INPUT(8), OUTPUT(8, 0, 0)), { 0, 0x1ff } }, 1 },
    { { "by hand: bit 63 of a mask of 63 bits",
        DESIGN(INPUT(63), OUTPUT(63, 0, 1)),
        { 0x8000000000000001u, FULL(63) } }, 0 },
    { { "by hand: a bit outside an extract asks for none of its a",
        DESIGN(INPUT(8), EXTRACT(4, 0, 0)), { 0, 0x10 } }, 1 },
    { { "by hand: a bit outside a mux asks for no selector",
        DESIGN(INPUT(1), INPUT(8), INPUT(8), ROW(MUX, 8, 0, 1, 2, 0)),
        { 0, 0, 0, 0x100 } }, 3 },
    { { "by hand: a bit outside a comparison asks for nothing",
        DESIGN(INPUT(8), INPUT(8), OF_TWO(EQUAL, 1, 0, 1)), { 0, 0, 2 } }, 2 },
    { { "by hand: a bit outside a sum asks for none below it",
        DESIGN(INPUT(8), INPUT(8), OF_TWO(ADD, 8, 0, 1)), { 0, 0, 0x100 } },
      2 },
    { { "by hand: a sum lacks a lower bit of an operand",
        DESIGN(INPUT(8), INPUT(8), OF_TWO(ADD, 8, 0, 1)), { 0x0f, 0x0d, 8 } },
      1 },
    { { "by hand: a mux whose D is one bit lacks its selector",
        DESIGN(INPUT(1), INPUT(8), INPUT(8), ROW(MUX, 8, 0, 1, 2, 0)),
        { 0, 0x80, 0x80, 0x80 } }, 0 },
    { { "by hand: a shift lacks the top bit where copies of it are kept",
        DESIGN(INPUT(8), ROW(ARITHMETIC_SHIFT, 8, 0, 0, 0, 4),
               OUTPUT(8, 1, 0xc6)),
        { 0x60, 0xc6, 0xff } }, 0 },
    { { "by hand: an and lacks a bit that its constant leaves open",
        DESIGN(INPUT(8), CONSTANT(8, 0x3c), OF_TWO(AND, 8, 0, 1),
               OUTPUT(8, 2, 0xff)),
        { 0x38, 0xff, 0xff, 0xff } }, 0 },
    { { "by hand: an and lacks a bit of its constant",
        DESIGN(INPUT(8), CONSTANT(8, 0x3c), OF_TWO(AND, 8, 0, 1),
               OUTPUT(8, 2, 0xff)),
        { 0x3c, 0x7f, 0xff, 0xff } }, 1 },
    { { "by hand: an or lacks a bit that its constant leaves open",
        DESIGN(INPUT(8), CONSTANT(8, 0x18), OF_TWO(OR, 8, 1, 0),
               OUTPUT(8, 2, 0xff)),
        { 0x67, 0xff, 0xff, 0xff } }, 0 },
    { { "by hand: of two constants neither cuts the other",
        DESIGN(CONSTANT(8, 0x0f), CONSTANT(8, 0xf0), OF_TWO(AND, 8, 0, 1),
               OUTPUT(8, 2, 0xff)),
        { 0xff, 0x0f, 0xff, 0xff } }, 1 },
    { { "by hand: a constant of which a bit is cleared leaves it open",
        DESIGN(INPUT(8), KEEPING(0x08, CONSTANT, 8, 0, 0, 0, 0x18),
               OF_TWO(OR, 8, 1, 0), OUTPUT(8, 2, 0xff)),
        { 0xe7, 0xff, 0xff, 0xff } }, 0 }
};

void trim_by_hand(void)
{
    static struct netlist net;
    struct known known;
    unsigned i;

    for (i = 0; i < sizeof accepted / sizeof *accepted; i++) {
        test_begin(accepted[i].list.name);
        worked_make(&net, &accepted[i].list);
        known = list_call(&net, accepted[i].list.words);
        demand_answer(known.answer, accepted[i].answer);
        demand_keeps(&known, accepted[i].keeps, net.count);
        test_end();
    }
    for (i = 0; i < sizeof refused / sizeof *refused; i++) {
        test_begin(refused[i].list.name);
        worked_make(&net, &refused[i].list);
        expect_faulty(&net, refused[i].list.words, refused[i].record);
        test_end();
    }
}
