/* Runs of many cycles on random valid designs: library against model.
   Assumes that design number i depends only on the seed and on i. */

#include "../harness/styles.h"
#include "parts.h"

/* The number of the first design is apart from those of other tests. The
   first designs are full ones. */
enum { FIRST = 5000000, DESIGNS = 5784, FULL = 84, LONG = 40,
       LONG_CYCLES = 1000 };

static struct netlist net;
static struct lent lent;

/* A call that is refused in the middle of a run; the lists stay, so the run
   goes on as if it had not been made. */
static void refused_call(struct rng *rng)
{
    uint32_t number = rng_below(rng, net.count + 1);
    const struct record *record = &net.records[number];
    struct lent refused = lent;

    if (number < net.count && kind_is_given(record->kind)
        && record->width < 64) {
        uint64_t bit = (uint64_t)1 << rng_between(rng, record->width, 63);

        words_of(&lent, BOARD)[number] |= bit;
        expect_refused(&cycle_operation, &lent, 12, number);
        words_of(&lent, BOARD)[number] ^= bit;
    } else {
        refused.of[NEXT].length = 8 * (number + (size_t)(number == net.count));
        expect_refused(&cycle_operation, &refused, 11, 0);
    }
}

static void cycle(int is_noted)
{
    static uint64_t board[COUNT_LIMIT];
    struct lent before = lent;

    memcpy(board, lent.of[BOARD].bytes, lent.of[BOARD].length);
    before.of[BOARD].bytes = (uint8_t *)board;
    expect_call(&cycle_operation, &lent, 0);
    if (is_noted)
        clock_note_cycle(&net, &before, &lent);
}

/* Each cycle gets new words at its inputs. With `noise`, the next list gets
   other ones; else the two lists just change places. */
static void run(struct rng *rng, int from_reset, unsigned cycles)
{
    int noise = rng_once_in(rng, 2);
    unsigned i;

    lent = lend(&cycle_operation, rng, &net);
    if (from_reset)
        expect_call(&start_operation, &lent, 0);
    for (i = 0; i < cycles; i++) {
        put_words(words_of(&lent, BOARD), rng, &net, KIND_INPUT);
        if (rng_once_in(rng, 16))
            refused_call(rng);
        cycle(i % 4 == 0);
        lists_turn(&lent);
        if (noise)
            rng_fill(rng, lent.of[NEXT].bytes, lent.of[NEXT].length);
    }
}

/* From any states and from reset; fewer cycles for longer designs. */
static void run_twice(struct rng *rng)
{
    unsigned cycles = net.count <= 100 ? rng_between(rng, 4, 16)
                    : net.count <= 600 ? 6 : 4;

    run(rng, 0, cycles);
    run(rng, 1, cycles);
}

void clock_runs(uint64_t seed)
{
    unsigned long i;

    test_begin("generated: runs of designs of all styles and sizes");
    for (i = 0; i < DESIGNS; i++) {
        struct rng rng = rng_for(seed, FIRST + i);

        design_by_turn(&rng, &net, i < FULL ? COUNT_LIMIT
                                            : design_count(&rng, 0), i);
        run_twice(&rng);
    }
    test_end();

    test_begin("generated: runs of 1,000 cycles from reset");
    for (i = 0; i < LONG; i++) {
        struct rng rng = rng_for(seed, FIRST + DESIGNS + i);

        design_by_turn(&rng, &net, rng_between(&rng, 5, 60), i);
        run(&rng, 1, LONG_CYCLES);
    }
    test_end();
}
