/* Designs by hand with a board list, and the new list that each must give.
   Assumes numbers worked out from the paper, and not by a program. */

#include <string.h>

#include "../../include/pcn.h"
#include "../compact/halved.h"
#include "../harness/known.h"
#include "../harness/lend.h"
#include "../harness/operations.h"
#include "../harness/report.h"
#include "../harness/trial.h"
#include "../harness/words.h"
#include "parts.h"

#define ALL_ONES (~(uint64_t)0)

/* A design with its masks, the board list of its file, and the new list. */
static const struct example {
    struct worked old;
    uint64_t board[9], made[9];
} examples[] = {
    { { "by hand: a state keeps the bits of its mask, a pin keeps all",
        DESIGN(INPUT(8), REGISTER(8, 0, 0xa5), OUTPUT(8, 1, 0x1f)),
        { 0x1f, 0x1f, 0xff } },
      { 0xc3, 0xf6, 0x99 }, { 0xc3, 0x16, 0 } },
    { { "by hand: an input that nobody reads takes its word along",
        DESIGN(INPUT(8), INPUT(4), OUTPUT(8, 0, 0xff)), { 0xff, 0, 0xff } },
      { 0x12, 0xb, 7 }, { 0x12, 0xb, 0 } },
    { { "by hand: a state that nobody reads goes with its register",
        DESIGN(CONSTANT(8, 5), INPUT(8), OF_TWO(ADD, 8, 0, 1),
               OUTPUT(8, 1, 0xff), REGISTER(8, 2, 9)),
        { 0, 0xff, 0, 0xff, 0 } },
      { 1, 0x5a, 2, 3, 0x77 }, { 0x5a, 0, 0, 0, 0 } },
    { { "by hand: two registers move to the places of two that go",
        DESIGN(REGISTER(8, 1, 1), REGISTER(8, 0, 2), REGISTER(8, 3, 3),
               REGISTER(8, 2, 4), OUTPUT(8, 3, 0xff)),
        { 0, 0, 0xff, 0xff, 0xff } },
      { 0x11, 0x22, 0x33, 0x44, 0x55 }, { 0x33, 0x44, 0, 0, 0 } },
    { { "by hand: pins move, and what goes leaves zeros at the end",
        DESIGN(REGISTER(8, 2, 0), INPUT(8), OF_TWO(ADD, 8, 0, 1), INPUT(1)),
        { 0, 0, 0, 0 } },
      { 9, 0xfe, 3, 1 }, { 0xfe, 1, 0, 0 } },
    { { "by hand: a pin and a register around a constant that goes",
        DESIGN(REGISTER(8, 4, 0x21), CONSTANT(8, 7), OUTPUT(8, 0, 0xff),
               INPUT(8), OF_TWO(XOR, 8, 0, 3)),
        { 0xff, 0, 0xff, 0xff, 0xff } },
      { 0x10, 0x20, 0x30, 0x40, 0x50 }, { 0x10, 0, 0x40, 0, 0 } },
    { { "by hand: a register that has become a constant has no state",
        DESIGN(INPUT(8), REGISTER(8, 0, 0x5a), CONSTANT(8, 0),
               OF_TWO(AND, 8, 1, 2), OUTPUT(8, 3, 0xff)),
        { 0, 0, 0xff, 0xff, 0xff } },
      { 0x81, 0xff, 1, 2, 3 }, { 0x81, 0, 0, 0, 0 } },
    { { "by hand: an output that keeps nothing of a register",
        DESIGN(REGISTER(8, 2, 0x77), OUTPUT(8, 0, 0), CONSTANT(8, 1)),
        { 0, 0xff, 0 } },
      { 0x3c, 1, 1 }, { 0, 0, 0 } },
    { { "by hand: a mux that keeps nothing of a register",
        DESIGN(CONSTANT(1, 1), CONSTANT(8, 3), OF_TWO(ADD, 8, 1, 1),
               REGISTER(8, 2, 4), KEEPING(0, MUX, 8, 0, 2, 3, 0),
               OUTPUT(8, 4, 0x0f)),
        { 0, 0, 0, 0, 0x0f, 0xff } },
      { 1, 2, 3, 0x99, 5, 6 }, { 0, 0, 0, 0, 0, 0 } },
    /* The mask has all bits that the output asks for, kept or not. */
    { { "by hand: a keep word clears no bit of a state",
        DESIGN(INPUT(8), KEEPING(0x0f, REGISTER, 8, 0, 0, 0, 0),
               OUTPUT(8, 1, 0xff)),
        { 0x0f, 0xff, 0xff } },
      { 0xf5, 0xab, 0 }, { 0xf5, 0xab, 0 } },
    { { "by hand: a register that keeps nothing is still a register",
        DESIGN(CONSTANT(8, 0xab), KEEPING(0, REGISTER, 8, 0, 0, 0, 0x11),
               OUTPUT(8, 1, 0xff)),
        { 0, 0xff, 0xff } },
      { 5, 0xee, 6 }, { 0, 0xee, 0 } },
    { { "by hand: an input that keeps nothing takes its word along",
        DESIGN(KEEPING(0, INPUT, 8, 0, 0, 0, 0), OUTPUT(8, 0, 0xff)),
        { 0xff, 0xff } },
      { 0xd2, 4 }, { 0xd2, 0 } },
    { { "by hand: each state is cut by the mask of its own register",
        DESIGN(INPUT(8), REGISTER(8, 0, 0), REGISTER(8, 1, 0),
               OUTPUT(8, 1, 0xf0), OUTPUT(8, 2, 0x3c)),
        { 0xfc, 0xfc, 0x3c, 0xff, 0xff } },
      { 0xff, 0xff, 0xff, 0xff, 0xff }, { 0xff, 0xfc, 0x3c, 0, 0 } },
    { { "by hand: words beyond the widths, but at no input and no register",
        DESIGN(INPUT(1), CONSTANT(1, 1), OF_TWO(AND, 1, 0, 1),
               REGISTER(1, 2, 0), OUTPUT(1, 3, 1)),
        { 1, 1, 1, 1, 1 } },
      { 1, ALL_ONES, ALL_ONES, 1, ALL_ONES }, { 1, 0, 0, 1, 0 } },
    { { "by hand: inputs and outputs in turn",
        DESIGN(INPUT(1), OUTPUT(1, 0, 1), CONSTANT(2, 3), INPUT(3),
               OUTPUT(2, 2, 1), OUTPUT(3, 3, 0), INPUT(4)),
        { 1, 1, 1, 0, 3, 7, 0 } },
      { 1, 9, 9, 5, 9, 9, 0xe }, { 1, 0, 0, 5, 0, 0, 0xe } },
    { { "by hand: words of 64 bits, of which all bytes differ",
        DESIGN(CONSTANT(64, 0x1122334455667788u), INPUT(64),
               REGISTER(64, 1, 1), OUTPUT(64, 2, 0x0123456789abcdefu)),
        { 0, 0x0123456789abcdefu, 0x0123456789abcdefu, ALL_ONES } },
      { 1, 0xfedcba9876543210u, 0xf1e2d3c4b5a69788u, 2 },
      { 0xfedcba9876543210u, 0x0122414481a28588u, 0, 0 } },
    { { "by hand: masks that have bit 63 alone",
        DESIGN(INPUT(64), OF_TWO(XOR, 64, 0, 0), REGISTER(64, 1, 1),
               OUTPUT(64, 2, 0x8000000000000000u)),
        { 0x8000000000000000u, 0x8000000000000000u, 0x8000000000000000u,
          ALL_ONES } },
      { ALL_ONES, 5, ALL_ONES, 7 },
      { ALL_ONES, 0, 0x8000000000000000u, 0 } },
    { { "by hand: the shift chain in mid-run",
        DESIGN(INPUT(1), REGISTER(4, 3, 0), EXTRACT(3, 1, 1),
               OF_TWO(CONCAT, 4, 0, 2), EXTRACT(1, 1, 0), OUTPUT(1, 4, 1)),
        { 1, 0xf, 7, 0xf, 1, 1 } },
      { 1, 0xb, 0, 0, 0, 0 }, { 1, 0xb, 0, 0, 0, 0 } },
    { { "by hand: without inputs and outputs nothing is left",
        DESIGN(REGISTER(8, 2, 7), CONSTANT(8, 1), OF_TWO(ADD, 8, 0, 1)),
        { 0, 0, 0 } },
      { 0x7f, 1, 2 }, { 0, 0, 0 } },
    { { "by hand: no records", NULL, 0, { 0 } }, { 0 }, { 0 } }
};

/* The mask list and the new list may hold anything before. */
static void expect_example(const struct example *example)
{
    struct lent lent = lend_worked(&change_over_operation, &example->old);
    size_t count = example->old.count;

    memcpy(lent.of[OLD_BOARD].bytes, example->board, 8 * count);
    expect_call(&change_over_operation, &lent, 0);
    demand_words("mask list", &lent.of[1], example->old.words, count);
    demand_words("new list", &lent.of[NEW_BOARD], example->made, count);
}

/* The states of the ring, at half of the numbers, and 0 from there on. */
static void expect_halved(void)
{
    static struct netlist net;
    static uint64_t made[COUNT_LIMIT];
    struct rng rng = rng_for(3, trials_made());
    struct lent lent;
    uint32_t i;

    halved_make(&net);
    lent = lend(&change_over_operation, &rng, &net);
    for (i = 0; i < HALVED_REGISTERS; i++)
        made[i] = words_of(&lent, OLD_BOARD)[2 * i + 1];
    expect_call(&change_over_operation, &lent, 0);
    demand_words("new list", &lent.of[NEW_BOARD], made, COUNT_LIMIT);
}

/* A counter of 8 bits, of which the low four are put out, behind a counter
   that nobody reads. */
static const struct worked counter = {
    NULL, DESIGN(REGISTER(8, 2, 7), CONSTANT(8, 1), OF_TWO(ADD, 8, 0, 1),
                 REGISTER(8, 4, 0), OF_TWO(ADD, 8, 3, 1),
                 OUTPUT(8, 3, 0x0f)), { 0 }
};

enum { COUNTED = 6, LEFT = 4 };

/* Clocks a file of so many records with an output at the end and no inputs,
   from the first list on; gives the output of the last cycle. */
static uint64_t clocked(const uint8_t *file, uint32_t count,
                        uint64_t (*lists)[COUNTED], unsigned cycles)
{
    uint64_t shown = 0;

    while (cycles-- > 0) {
        demand_answer(pcn_cycle(file, HEADER_BYTES + RECORD_BYTES * count,
                                lists[0], count, lists[1], count), 0);
        shown = lists[0][count - 1];
        memcpy(lists[0], lists[1], 8 * (size_t)count);
    }
    return shown;
}

/* 30 cycles from a start show 29 at last and leave 30, hex 1e, of which hex e
   goes along: the compacted file shows e, f, 0, 1. A start of it shows 0. */
static void expect_counting(void)
{
    static struct netlist net;
    static struct file file, made;
    uint64_t old[2][COUNTED], new[2][COUNTED], masks[COUNTED];
    unsigned i;

    worked_make(&net, &counter);
    netlist_write(&net, &file);
    demand_answer(pcn_compact(file.bytes, file.length, masks, COUNTED,
                              made.bytes, file.length),
                  HEADER_BYTES + RECORD_BYTES * LEFT);
    demand_answer(pcn_start(file.bytes, file.length, old[0], COUNTED), 0);
    demand_answer(clocked(file.bytes, COUNTED, old, 30), 29 % 16);
    demand_answer(pcn_change_over(file.bytes, file.length, masks, COUNTED,
                                  old[0], COUNTED, new[0], COUNTED), 0);
    for (i = 30; i < 34; i++)
        demand_answer(clocked(made.bytes, LEFT, new, 1), i % 16);
    pcn_start(made.bytes, HEADER_BYTES + RECORD_BYTES * LEFT, new[0], LEFT);
    demand_answer(clocked(made.bytes, LEFT, new, 1), 0);
}

void change_over_by_hand(void)
{
    unsigned i;

    for (i = 0; i < sizeof examples / sizeof *examples; i++) {
        test_begin(examples[i].old.name);
        expect_example(&examples[i]);
        test_end();
    }
    test_begin("by hand: every second of 2,048 records goes");
    expect_halved();
    test_end();
    test_begin("by hand: a counter goes on counting");
    expect_counting();
    test_end();
}
