/* The examples of 01 that run cycles, one test each, and small runs.
   Assumes full keep words unless a test sets one. */

#include "../harness/examples.h"
#include "parts.h"

static const uint64_t nothing[7];
static struct netlist net;
static struct lent lent;

static void begin(const char *name)
{
    struct rng rng = rng_for(5, net.count);

    test_begin(name);
    lent = lend(&cycle_operation, &rng, &net);
}

/* Both must accept, and leave these words, one for each record. */
static void expect_start(const uint64_t *board)
{
    expect_call(&start_operation, &lent, 0);
    demand_words("board list", &lent.of[BOARD], board, net.count);
}

/* The same, and the next list becomes the board list. */
static void expect_cycle(const uint64_t *values, const uint64_t *next)
{
    expect_call(&cycle_operation, &lent, 0);
    demand_words("board list", &lent.of[BOARD], values, net.count);
    demand_words("next list", &lent.of[NEXT], next, net.count);
    lists_turn(&lent);
}

/* 100,000 times 70,000 is hex 1a13b8600. The third input has 32 bits; this
   refusal, and once the file, are written out, so that a slip in the tests'
   own tools shows. */
static void ramp(const char *name, uint8_t width, uint64_t k, uint64_t out)
{
    uint64_t values[7] = { 100000, 70000, 5, 0xa13b8600u, 0xa13b8605u, 0, 0 };

    values[5] = values[6] = out;
    example_ramp(&net, width, k);
    begin(name);
    if (width == 16 && memcmp(lent.of[0].bytes, ramp_bytes, RAMP_BYTES) != 0)
        test_fail();
    words_of(&lent, BOARD)[2] = 0x100000000u;
    expect_call(&cycle_operation, &lent, 0x8000000c00000002u);
    memcpy(words_of(&lent, BOARD), values, 8 * 3);
    expect_cycle(values, nothing);
    expect_start(nothing);
    test_end();
}

/* From 0 on, three times round. */
static void counter(void)
{
    unsigned i;

    example_counter(&net);
    begin("cycle: counter, 800 cycles, which pass 255 three times");
    expect_start(nothing);
    for (i = 0; i < 800; i++) {
        uint64_t values[3] = { i % 256, 1, (i + 1) % 256 };
        uint64_t next[3] = { (i + 1) % 256, 0, 0 };

        expect_cycle(values, next);
    }
    test_end();
}

/* What goes in comes out four cycles later. */
static void shift_chain(void)
{
    static const char bits[] = "1011001110001111000010100110111";
    uint64_t state = 0;
    unsigned i;

    example_shift_chain(&net);
    begin("cycle: shift chain, four cycles from input to output");
    expect_start(nothing);
    for (i = 0; i < sizeof bits - 1; i++) {
        uint64_t in = bits[i] == '1', out = i >= 4 && bits[i - 4] == '1';
        uint64_t follows = in * 8 + (state >> 1);
        uint64_t values[6] = { in, state, state >> 1, follows, out, out };
        uint64_t next[6] = { 0, follows, 0, 0, 0, 0 };

        words_of(&lent, BOARD)[0] = in;
        expect_cycle(values, next);
        state = follows;
    }
    test_end();
}

/* A pin's word and a register's state are cut, and so is what a register hands
   to itself; the reset state is written whole. */
static void kept_words(void)
{
    static const uint64_t reset[3] = { 0xab, 0xcd, 0 };
    static const uint64_t values[3] = { 0x0b, 0xc0, 0x0b };
    static const uint64_t next[3] = { 0x0b, 0x0b, 0 };

    netlist_clear(&net);
    netlist_add(&net, KIND_REGISTER, 8, 0, 0, 0, 0xab);
    netlist_add(&net, KIND_REGISTER, 8, 0, 0, 0, 0xcd);
    netlist_input(&net, 8);
    net.records[0].keep = net.records[2].keep = 0x0f;
    net.records[1].keep = 0xf0;
    begin("cycle: with keep word 0f, pin ab has value 0b, and so has state ab");
    expect_start(reset);
    words_of(&lent, BOARD)[2] = 0xab;
    expect_cycle(values, next);
    test_end();
}

/* So many registers, each of which reads the one before it, and the first one
   the last, with reset states that rise. */
static void ring(const char *name, uint32_t count, uint8_t width,
                 uint64_t first)
{
    static uint64_t words[COUNT_LIMIT + 1];
    uint32_t i;

    netlist_clear(&net);
    for (i = 0; i < count; i++) {
        words[i + 1] = first + i;
        netlist_add(&net, KIND_REGISTER, width, (i + count - 1) % count, 0, 0,
                    first + i);
    }
    begin(name);
    expect_start(words + 1);
    for (i = 0; i < 10; i++) {
        words[0] = words[count];
        expect_cycle(words + 1, words);
        memmove(words + 1, words, 8 * (size_t)count);
    }
    test_end();
}

void clock_examples(void)
{
    ramp("cycle: ramp", 16, 0, 0x8605);
    ramp("cycle: ramp with extract of width 8 at 8", 8, 8, 0x86);
    counter();
    shift_chain();
    kept_words();
    ring("cycle: two registers that read each other, states 1 and 2", 2, 8,
         1);
    ring("start and cycle: no records at all", 0, 1, 0);
    ring("start and cycle: a ring of 2,048 registers", COUNT_LIMIT, 13, 4096);
}
