/* Every kind at every width with words at the edges, every place of bits.
   Assumes that each trial is judged by the model and by settled.c. */

#include "../harness/designs.h"
#include "parts.h"

/* The first three records of each netlist: an input of one bit, and two of
   the width at hand. */
enum { SELECTOR, ONE, TWO };

enum { CORNERS = 8 };

/* Which keep words are drawn, and which are full. */
enum keeps { ALL_FULL, READERS_DRAWN, ALL_DRAWN, KEEPS };

static struct netlist net;

static uint64_t corner(struct rng *rng, unsigned width, unsigned which)
{
    uint64_t top = (uint64_t)1 << (width - 1);
    uint64_t corners[CORNERS] = {
        0, 1, ~(uint64_t)0, top, top - 1, 0x5555555555555555u,
        0xaaaaaaaaaaaaaaaau, 0
    };

    corners[CORNERS - 1] = rng_word(rng);
    return corners[which] & width_mask(width);
}

static void add(uint8_t kind, unsigned width, uint32_t a, uint32_t b,
                uint64_t k)
{
    netlist_add(&net, kind, (uint8_t)width, a, b, 0, k);
}

static void begin_netlist(unsigned width)
{
    netlist_clear(&net);
    netlist_input(&net, 1);
    netlist_input(&net, (uint8_t)width);
    netlist_input(&net, (uint8_t)width);
}

/* All kinds that may have this width, and a register for each of them that
   gets its value. */
static void make_all_kinds(struct rng *rng, unsigned width, enum keeps keeps)
{
    unsigned cut = rng_between(rng, 1, width);
    uint32_t i, count;
    uint8_t kind;

    begin_netlist(width);
    add(KIND_CONSTANT, width, 0, 0, design_word(rng, width));
    add(KIND_OUTPUT, width, ONE, 0, 0);
    add(KIND_EXTRACT, cut, TWO, 0, rng_between(rng, 0, width - cut));
    if (width <= 32)
        add(KIND_CONCAT, 2 * width, ONE, TWO, 0);
    for (kind = KIND_AND; kind < KIND_COUNT; kind++)
        if (kind_shifts(kind))
            add(kind, width, ONE, 0, rng_below(rng, width));
        else if (kind != KIND_MUX
                 && (kind != KIND_MUL || width <= MULTIPLIER_LIMIT))
            add(kind, kind_compares(kind) ? 1 : width, ONE, TWO, 0);
    netlist_add(&net, KIND_MUX, (uint8_t)width, SELECTOR, ONE, TWO, 0);
    for (i = 0, count = net.count; i < count; i++)
        if (net.records[i].kind != KIND_OUTPUT)
            add(KIND_REGISTER, net.records[i].width, i, 0,
                design_word(rng, net.records[i].width));
    for (i = keeps == ALL_DRAWN ? 0 : TWO + 1; i < net.count; i++)
        if (keeps != ALL_FULL)
            net.records[i].keep = design_word(rng, net.records[i].width);
}

/* A cycle with these operands. */
static void try_words(struct rng *rng, unsigned selector, uint64_t one,
                      uint64_t two)
{
    struct lent lent = lend(&cycle_operation, rng, &net);
    uint64_t full = width_mask(net.records[ONE].width);

    words_of(&lent, BOARD)[SELECTOR] = selector;
    words_of(&lent, BOARD)[ONE] = one & full;
    words_of(&lent, BOARD)[TWO] = two & full;
    expect_call(&cycle_operation, &lent, 0);
}

/* Every two corners, and words next to each other, where comparisons turn. */
static void try_corners(struct rng *rng, unsigned width)
{
    unsigned i, j;

    for (i = 0; i < CORNERS; i++) {
        uint64_t word = corner(rng, width, i);

        for (j = 0; j < 2 * CORNERS; j++)
            try_words(rng, j % 2, word, corner(rng, width, j / 2));
        try_words(rng, i % 2, word, word + 1);
        try_words(rng, i % 2, word, word - 1);
        try_words(rng, i % 2, rng_word(rng), word);
    }
}

static void every_kind(void)
{
    unsigned keeps, width;

    test_begin("grid: every kind and width, words at the edges, keep words"
               " full and drawn");
    for (keeps = 0; keeps < KEEPS; keeps++)
        for (width = 1; width <= 64; width++) {
            struct rng rng = rng_for(7 + keeps, width);
            struct lent lent;

            make_all_kinds(&rng, width, (enum keeps)keeps);
            try_corners(&rng, width);
            lent = lend(&start_operation, &rng, &net);
            expect_call(&start_operation, &lent, 0);
        }
    test_end();
}

/* All extracts of w bits from a bits, and the concat of a bits above w. */
static void try_place(unsigned a, unsigned w)
{
    struct rng rng = rng_for(10 + a, w);
    unsigned k, i;

    begin_netlist(a);
    for (k = 0; k + w <= a; k++)
        add(KIND_EXTRACT, w, ONE, 0, k);
    if (a + w <= 64)
        add(KIND_CONCAT, a + w, ONE, netlist_input(&net, (uint8_t)w), 0);
    for (i = 0; i < CORNERS; i++)
        try_words(&rng, 0, corner(&rng, a, i), 0);
}

/* All shifts of this width. */
static void try_shifts(unsigned width)
{
    struct rng rng = rng_for(200, width);
    unsigned k, i;
    uint8_t kind;

    begin_netlist(width);
    for (kind = KIND_LEFT_SHIFT; kind_shifts(kind); kind++)
        for (k = 0; k < width; k++)
            add(kind, width, ONE, 0, k);
    for (i = 0; i < 2 * CORNERS; i++)
        try_words(&rng, 0, i < CORNERS ? corner(&rng, width, i)
                                       : rng_word(&rng), 0);
}

void clock_grid(void)
{
    unsigned a, w;

    every_kind();
    test_begin("grid: extract of every width at every place, every concat");
    for (a = 1; a <= 64; a++)
        for (w = 1; w <= 64; w++)
            try_place(a, w);
    test_end();
    test_begin("grid: every shift of every width by every count of places");
    for (w = 1; w <= 64; w++)
        try_shifts(w);
    test_end();
}
