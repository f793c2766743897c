/* The other direction: one cared bit is changed, and outputs do differ.
   Assumes that this is not always so; it must be so often enough. */

#include <stdio.h>

#include "../harness/report.h"
#include "../harness/styles.h"
#include "calls.h"
#include "parts.h"

enum {
    FIRST = 10000000, /* apart from the numbers of other tests */
    DESIGNS = 1500,
    CYCLES = 16,
    LEAST_PERCENT = 20,
    LEAST_SEEN = 200
};

/* Where the bit is changed: at an input or a register in the first cycle, in
   the value of another signal in each, or out of a keep word. */
enum flip { AT_INPUT, AT_REGISTER, AT_VALUE, AT_KEEP, FLIPS };

static const char *const names[FLIPS] = {
    "seen: a cared bit of an input changed in one cycle",
    "seen: a cared bit of a register's first state changed",
    "seen: a cared bit of an inner signal changed in each cycle",
    "seen: a bit of D taken out of a keep word"
};

static struct masked masked;
static struct run plain, changed;

/* What is changed: which bit of which record, and how. */
static enum flip flip;
static uint32_t number;
static uint64_t bit;

static uint64_t flip_value(void *context, uint32_t at, uint64_t value)
{
    (void)context;
    if (at != number || (flip < AT_VALUE && changed.cycles > 0))
        return value;
    return flip == AT_KEEP ? value & ~bit : value ^ bit;
}

/* The bits of a signal that may be changed in this way. */
static uint64_t choice(uint32_t at)
{
    const struct record *record = &masked.net.records[at];
    uint64_t d = masked.masks[at] & record->keep;
    int is_output = record->kind == KIND_OUTPUT;

    switch (flip) {
    case AT_INPUT:
        return record->kind == KIND_INPUT ? d : 0;
    case AT_REGISTER:
        return record->kind == KIND_REGISTER ? d : 0;
    case AT_VALUE:
        return kind_is_given(record->kind) || is_output ? 0
                                                        : masked.masks[at];
    default:
        return is_output ? 0 : d;
    }
}

/* Chooses a bit that may be changed, from a random place on; false if there
   is none. */
static int choose(struct rng *rng)
{
    uint32_t places = 64 * masked.net.count;
    uint32_t start = rng_below(rng, places);
    uint32_t i;

    for (i = 0; i < places; i++) {
        number = (start + i) % places / 64;
        bit = (uint64_t)1 << (start + i) % 64;
        if (choice(number) & bit)
            return 1;
    }
    return 0;
}

/* True when an output differs in some cycle of two runs that are alike but
   for the change. */
static int is_seen(struct rng *rng)
{
    static uint64_t words[COUNT_LIMIT];
    uint64_t seed = rng_word(rng);
    uint32_t i;

    run_begin(&plain, &masked, 0, rng_for(seed, 0));
    run_begin(&changed, &masked, 0, rng_for(seed, 0));
    changed.change = flip_value;
    while (plain.cycles < CYCLES) {
        put_words(words, rng, &masked.net, KIND_INPUT);
        run_cycle(&plain, words);
        run_cycle(&changed, words);
        for (i = 0; i < masked.net.count; i++)
            if (masked.net.records[i].kind == KIND_OUTPUT
                && run_values(&plain)[i] != run_values(&changed)[i])
                return 1;
    }
    return 0;
}

static void try_flips(uint64_t seed)
{
    unsigned long tried = 0, seen = 0, i;

    test_begin(names[flip]);
    for (i = 0; i < DESIGNS; i++) {
        struct rng rng = rng_for(seed, FIRST + DESIGNS * (unsigned)flip + i);

        design_styled(&rng, &masked.net, rng_between(&rng, 4, 60),
                      &styles[i % STYLE_UNREAD]);
        trim_netlist(&masked);
        if (!choose(&rng))
            continue;
        tried++;
        seen += (unsigned long)is_seen(&rng);
    }
    printf("      in %lu of %lu designs\n", seen, tried);
    if (seen < LEAST_SEEN || 100 * seen < LEAST_PERCENT * tried)
        test_fail();
    test_end();
}

void runs_seen(uint64_t seed)
{
    for (flip = AT_INPUT; flip < FLIPS; flip++)
        try_flips(seed);
}
