/* Refusal 12: words of inputs and registers with bits at or above the width.
   Assumes that each trial looks whether all lists are as they were. */

#include "range.h"

#include <stdio.h>
#include <string.h>

#include "designs.h"
#include "lend.h"
#include "operations.h"
#include "report.h"
#include "styles.h"
#include "trial.h"
#include "words.h"

enum { DESIGNS = 1600, LEAST_WIDE = 1000, NAME_ROOM = 120 };

static const struct operation *ranged;
static unsigned board_list;
static struct netlist net;
static struct lent lent;

/* A test of the operation under this name. */
static void begin(const char *name)
{
    static char text[NAME_ROOM];

    snprintf(text, sizeof text, "%s: 12: %s", ranged->name, name);
    test_begin(text);
}

static uint64_t *board_words(void)
{
    return words_of(&lent, board_list);
}

/* An input and a register of this width beside a constant, which comes first
   so that the record is not 0. */
static uint64_t *lend_pair(struct rng *rng, unsigned width)
{
    netlist_clear(&net);
    netlist_add(&net, KIND_CONSTANT, (uint8_t)width, 0, 0, 0, 0);
    netlist_input(&net, (uint8_t)width);
    netlist_add(&net, KIND_REGISTER, (uint8_t)width, 1, 0, 0, 0);
    net.records[1].keep = design_word(rng, width);
    net.records[2].keep = design_word(rng, width);
    lent = lend(ranged, rng, &net);
    return board_words();
}

/* Any list with a word too few is refused before its words are. */
static void try_shorter(void)
{
    unsigned i;

    for (i = 0; i < parameters_of(ranged); i++)
        if (is_measured(&ranged->parameters[i])) {
            lent.of[i].length -= 8;
            expect_refused(ranged, &lent, 11, 0);
            lent.of[i].length += 8;
        }
}

/* One bit more than the width has is refused, at the register, at both and at
   the input. */
static void try_bit(struct rng *rng, unsigned width, unsigned bit)
{
    uint64_t *board = lend_pair(rng, width);

    board[2] |= (uint64_t)1 << bit;
    expect_refused(ranged, &lent, 12, 2);
    board[1] |= (uint64_t)1 << bit;
    expect_refused(ranged, &lent, 12, 1);
    board[2] ^= (uint64_t)1 << bit;
    expect_refused(ranged, &lent, 12, 1);
    try_shorter();
}

/* All ones within the width pass, and at width 64 any words. */
static void every_bit(void)
{
    unsigned width, bit;

    begin("every bit from the width up, at an input and a register");
    for (width = 1; width <= 64; width++) {
        struct rng rng = rng_for(13, width);
        uint64_t *board = lend_pair(&rng, width);

        board[1] = board[2] = width_mask(width);
        expect_call(ranged, &lent, 0);
        for (bit = width; bit < 64; bit++)
            try_bit(&rng, width, bit);
        lend_pair(&rng, 64);
        rng_fill(&rng, lent.of[board_list].bytes, lent.of[board_list].length);
        expect_call(ranged, &lent, 0);
    }
    test_end();
}

/* Puts a bit at or above the width into the word of an input or register, if
   there is one; else false. Often it is the one at the width, or 63. */
static int spoil(struct rng *rng, uint32_t number)
{
    unsigned bits[3] = { net.records[number].width, 63, 0 };

    if (!kind_is_given(net.records[number].kind) || bits[0] > 63)
        return 0;
    bits[2] = rng_between(rng, bits[0], 63);
    board_words()[number] |= (uint64_t)1 << bits[rng_below(rng, 3)];
    return 1;
}

/* The word of a gate, constant or output counts for nothing, and neither do
   the words of lists that are only written. */
static void fill_others(int filling)
{
    uint32_t i;

    for (i = 0; i < parameters_of(ranged); i++)
        if (ranged->parameters[i].sort == WRITTEN_WORDS)
            memset(lent.of[i].bytes, filling, lent.of[i].length);
    for (i = 0; i < net.count; i++)
        if (!kind_is_given(net.records[i].kind))
            memset(&board_words()[i], filling, 8);
}

/* From the last record down, about one in so many words is spoilt, and half of
   them are mended again. */
static void spoil_some(struct rng *rng, uint32_t one_in)
{
    uint32_t i = net.count;

    while (i-- > 0) {
        uint64_t word = board_words()[i];

        if (!rng_once_in(rng, one_in) || !spoil(rng, i))
            continue;
        expect_refused(ranged, &lent, 12, i);
        if (rng_once_in(rng, 2))
            board_words()[i] = word;
    }
}

/* A start asks for no words at all. */
static void try_start(void)
{
    struct lent start = lent;

    start.of[BOARD] = lent.of[board_list];
    expect_call(&start_operation, &start, 0);
}

/* An accepted call leaves words that another one takes, before they are
   spoilt. The first design is a full one, in which each word is spoilt that
   can be. */
static void random_designs(uint64_t seed, unsigned long first)
{
    static const int fillings[4] = { 0xff, 0x00, 0x55, 0x01 };
    uint32_t i;

    begin("the lowest word too wide counts, words elsewhere do not");
    for (i = 0; i < DESIGNS; i++) {
        struct rng rng = rng_for(seed, first + i);
        uint32_t count = i < 200 ? i : design_count(&rng, 1);

        design_by_turn(&rng, &net, i == 0 ? COUNT_LIMIT : count, i);
        lent = lend(ranged, &rng, &net);
        fill_others(fillings[i % 4]);
        expect_call(ranged, &lent, 0);
        spoil_some(&rng, i == 0 ? 1 : 1u << rng_below(&rng, 9));
        try_start();
    }
    if (trials_ended(ranged, 12) < LEAST_WIDE)
        test_fail();
    test_end();
}

void try_range(const struct operation *operation, unsigned board,
               uint64_t seed, unsigned long first)
{
    ranged = operation;
    board_list = board;
    every_bit();
    random_designs(seed, first);
}
