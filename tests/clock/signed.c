/* Signed below beside signed numbers: all small ones, the edges of all widths.
   Assumes two's complement: a word with its top bit stands for 2^w less. */

#include "../harness/designs.h"
#include "parts.h"

/* FIRST: the number of the first draw is apart from those of other tests. */
enum { A, B, SMALL = 5, FIRST = 4000000, DRAWN = 40 };

static struct netlist net;
static struct lent lent;

static void begin(struct rng *rng, unsigned width)
{
    netlist_clear(&net);
    netlist_input(&net, (uint8_t)width);
    netlist_input(&net, (uint8_t)width);
    netlist_add(&net, KIND_SIGNED_BELOW, 1, A, B, 0, 0);
    lent = lend(&cycle_operation, rng, &net);
}

static void expect_below(uint64_t a, uint64_t b, int below)
{
    uint64_t values[3] = { a, b, (uint64_t)below };

    words_of(&lent, BOARD)[A] = a;
    words_of(&lent, BOARD)[B] = b;
    expect_call(&cycle_operation, &lent, 0);
    demand_words("board list", &lent.of[BOARD], values, 3);
}

static int number_of(int word, unsigned width)
{
    return word >= 1 << (width - 1) ? word - (1 << width) : word;
}

static void every_small_pair(void)
{
    unsigned width;
    int a, b;

    test_begin("signed: all pairs of numbers of up to 5 bits");
    for (width = 1; width <= SMALL; width++) {
        struct rng rng = rng_for(14, width);

        begin(&rng, width);
        for (a = 0; a < 1 << width; a++)
            for (b = 0; b < 1 << width; b++)
                expect_below((uint64_t)a, (uint64_t)b,
                             number_of(a, width) < number_of(b, width));
    }
    test_end();
}

/* Whether the word stands for a number below 0, and how far from 0 it is: at
   most 2^63, which fits no signed type of 64 bits. */
static int is_negative(uint64_t word, unsigned width)
{
    return word > width_mask(width - 1);
}

static uint64_t distance(uint64_t word, unsigned width)
{
    return is_negative(word, width) ? width_mask(width) - word + 1 : word;
}

static void try_pair(uint64_t a, uint64_t b, unsigned width)
{
    int below;

    if (is_negative(a, width) != is_negative(b, width))
        below = is_negative(a, width);
    else if (is_negative(a, width))
        below = distance(a, width) > distance(b, width);
    else
        below = distance(a, width) < distance(b, width);
    expect_below(a, b, below);
}

/* 0, 1, 2, the greatest ones, the least ones, -2, -1: every two of them, and
   words that are drawn beside their neighbours. */
static void every_width(uint64_t seed)
{
    unsigned width, i, j;

    test_begin("signed: the edges of every width, and numbers drawn");
    for (width = 1; width <= 64; width++) {
        struct rng rng = rng_for(seed, FIRST + width);
        uint64_t full = width_mask(width), top = full ^ full >> 1;
        uint64_t edges[9] = { 0, 1, 2, top - 2, top - 1, top, top + 1,
                              full - 1, full };

        begin(&rng, width);
        for (i = 0; i < 9; i++)
            for (j = 0; j < 9; j++)
                try_pair(edges[i] & full, edges[j] & full, width);
        for (i = 0; i < DRAWN; i++) {
            uint64_t word = design_word(&rng, width);

            try_pair(word, design_word(&rng, width), width);
            try_pair(word, rng_word(&rng) & full, width);
            try_pair(word, (word + 1) & full, width);
            try_pair((word + 1) & full, word, width);
        }
    }
    test_end();
}

void clock_signed(uint64_t seed)
{
    every_small_pair();
    every_width(seed);
}
