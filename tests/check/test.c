/* The test program for check: the paper's examples and every rule at its edge.
   Assumes full keep words in examples that state no other. */

#include <stdio.h>

#include "../../include/pcn.h"
#include "../harness/examples.h"
#include "../harness/operations.h"
#include "../harness/options.h"
#include "../harness/report.h"
#include "../harness/trial.h"
#include "parts.h"

/* Behind a design stands the refusal, or 0 where it is accepted, and then the
   record. */
static const struct worked examples[] = {
    { "example: 0 - 1 at width 8",
      DESIGN(CONSTANT(8, 0), CONSTANT(8, 1), OF_TWO(SUB, 8, 0, 1)), { 0 } },
    { "example: a square at width 32",
      DESIGN(CONSTANT(32, 0x10001), OF_TWO(MUL, 32, 0, 0)), { 0 } },
    { "example: a square at width 64 is 15",
      DESIGN(CONSTANT(64, 0x100000001u), OF_TWO(MUL, 64, 0, 0)), { 15, 1 } },
    { "example: an input of 8 bits with keep word 0f",
      DESIGN(KEEPING(0x0f, INPUT, 8, 0, 0, 0, 0)), { 0 } },
    { "example: width 64 passes", DESIGN(INPUT(64)), { 0 } },
    { "example: width 65 is 7", DESIGN(INPUT(65)), { 7, 0 } },
    { "example: extract of width 4 at 60 from 64 passes",
      DESIGN(INPUT(64), EXTRACT(4, 0, 60)), { 0 } },
    { "example: extract of width 5 at 60 from 64 is 9",
      DESIGN(INPUT(64), EXTRACT(5, 0, 60)), { 9, 1 } },
    { "example: extract at 2^64 - 1 is 9",
      DESIGN(INPUT(64), EXTRACT(4, 0, 0xffffffffffffffffu)), { 9, 1 } },
    { "example: a register may read itself", DESIGN(REGISTER(8, 0, 5)),
      { 0 } },
    { "example: an add that reads itself is 8",
      DESIGN(INPUT(8), OF_TWO(ADD, 8, 1, 0)), { 8, 1 } },
    { "example: width 0 in record 0 goes before kind 200 in record 1",
      DESIGN(INPUT(0), { 200, 8, { 0, 0, 0 }, 0, 0xff }), { 7, 0 } },
    { "a shift of width 8 by 7 passes, and one of width 64 by 63",
      DESIGN(INPUT(8), ROW(LEFT_SHIFT, 8, 0, 0, 0, 7), INPUT(64),
             ROW(ARITHMETIC_SHIFT, 64, 2, 0, 0, 63)), { 0 } },
    { "a shift of width 8 by 8 is 9",
      DESIGN(INPUT(8), ROW(RIGHT_SHIFT, 8, 0, 0, 0, 8)), { 9, 1 } },
    { "a shift by 2^64 - 1 is 9",
      DESIGN(INPUT(64), ROW(LEFT_SHIFT, 64, 0, 0, 0, 0xffffffffffffffffu)),
      { 9, 1 } },
    { "a shift that has a b is 10",
      DESIGN(INPUT(8), INPUT(8), ROW(ARITHMETIC_SHIFT, 8, 0, 1, 0, 1)),
      { 10, 2 } },
    { "a multiplier of 33 bits is 15 behind a register that reads it",
      DESIGN(REGISTER(33, 1, 0), OF_TWO(MUL, 33, 0, 0)), { 15, 1 } },
    { "9 goes before 15 in one record",
      DESIGN(INPUT(33), INPUT(34), OF_TWO(MUL, 33, 0, 1)), { 9, 2 } },
    { "15 goes before 10 in one record",
      DESIGN(INPUT(33), ROW(MUL, 33, 0, 0, 1, 0)), { 15, 1 } },
    { "10 in record 1 goes before 15 in record 2",
      DESIGN(INPUT(33), ROW(ADD, 33, 0, 0, 1, 0), OF_TWO(MUL, 33, 0, 0)),
      { 10, 1 } },
    { "kind 18 passes, and 19 behind it is 6",
      DESIGN(INPUT(8), OF_TWO(SIGNED_BELOW, 1, 0, 0),
             { 19, 8, { 0, 0, 0 }, 0, 0xff }), { 6, 2 } }
};

void expect_bytes(const uint8_t *bytes, size_t length, uint64_t answer)
{
    demand_answer(known_file(&check_operation, bytes, length).answer, answer);
}

void expect_check(const struct netlist *net, unsigned refusal,
                  uint32_t record)
{
    demand_answer(known_call(&check_operation, net).answer,
                  refusal == 0 ? net->count
                               : refused_answer(refusal, record));
}

static void ends_so(const struct operation *operation,
                    const struct netlist *net, const uint64_t *words)
{
    (void)operation;
    expect_check(net, (unsigned)words[0], (uint32_t)words[1]);
}

static void is_accepted(const struct operation *operation,
                        const struct netlist *net, const uint64_t *masks)
{
    (void)masks;
    demand_answer(known_call(operation, net).answer, net->count);
}

static void full_and_beyond(void)
{
    static struct netlist net;

    test_begin("example: ramp, given byte by byte, and 2,049 records");
    expect_bytes(ramp_bytes, RAMP_BYTES, 7);
    netlist_clear(&net);
    while (net.count < 2049)
        netlist_input(&net, 1);
    expect_check(&net, 4, 0);
    test_end();
}

/* The helpers of the header, on answers written out in full. */
static void taking_answers_apart(void)
{
    uint64_t refused = 0x80000009000007ffu;
    uint64_t tally = 0x0002000000000070u;

    test_begin("an answer is taken apart by the header's helpers");
    if (!PCN_REFUSED(refused) || PCN_REFUSED(tally)
        || PCN_REFUSAL(refused) != PCN_BAD_WIDTH_RULE
        || PCN_RECORD(refused) != 2047 || PCN_TALLY_WIDTH(tally) != 131072
        || PCN_TALLY_ONES(tally) != 112)
        test_fail();
    test_end();
}

int main(int argc, char **argv)
{
    options_begin(argc, argv);
    try_examples(&check_operation, is_accepted);
    try_worked(&check_operation, examples, sizeof examples / sizeof *examples,
               ends_so);
    full_and_beyond();
    taking_answers_apart();
    check_rules();
    printf("%lu files tried\n", trials_made());
    return tests_end() ? 0 : 1;
}
