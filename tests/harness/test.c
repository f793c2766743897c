/* Tries every operation in all the ways that its description allows.
   Assumes libpcn.a and the model; see tests/run. */

#include <stdio.h>

#include "examples.h"
#include "operations.h"
#include "options.h"
#include "parts.h"
#include "report.h"

enum { NAME_ROOM = 120, SEEDS_APART = 1000, LEAST = 100, REFUSALS = 64 };

/* What a test needs that not every operation has: lists that are measured, and
   words or numbers that can be refused. */
enum need { NONE, LISTS_TOO, WORDS_TOO };

/* Fails where a refusal, or acceptance, was reached too seldom by all tests
   before. One that the description does not have must not be reached. */
static void every_refusal(struct rng *rng, unsigned turn)
{
    uint64_t can = tried->refusals | REFUSAL(0);
    unsigned i;

    (void)rng;
    (void)turn;
    printf("      %s, accepted and by refusals:", tried->name);
    for (i = 0; i < REFUSALS; i++) {
        unsigned long ended = trials_ended(tried, i);

        if (ended > 0 || (can & REFUSAL(i)) != 0)
            printf(" %u: %lu", i, ended);
        if ((can & REFUSAL(i)) != 0 ? ended < LEAST : ended > 0)
            test_fail();
    }
    printf("\n");
}

static const struct {
    const char *name;
    part *attempt;
    unsigned turns;
    enum need need;
} parts[] = {
    { "nothing before or behind what is lent is touched", memory_forbidden,
      201, NONE },
    { "every alignment that is allowed", memory_alignments, 500, NONE },
    { "all in one block, in every order", memory_neighbours, 100, NONE },
    { "what the memory held, and equal calls", memory_old_contents, 200,
      NONE },
    { "earlier calls leave nothing behind", memory_earlier_calls, 200, NONE },
    { "each length wrong, and each two", wrong_lengths, 13, LISTS_TOO },
    { "lengths that are right but for 2^32 more", huge_lengths, 3, NONE },
    { "each rule broken, with lists of any length", broken_rules, RULES, NONE },
    { "each rule broken in a shift", broken_shifts, 3 * SHIFT_BREAKS, NONE },
    { "each rule broken in a multiplier", broken_multipliers,
      MULTIPLIER_BREAKS, NONE },
    { "damaged files of all families", damaged_files, 39500, NONE },
    { "valid designs of all styles", valid_designs, 18000, NONE },
    { "designs of 0, 1, 2 and 2,048 records", valid_sizes, 1611, NONE },
    { "words and numbers that are refused", spoilt_words, 5000, WORDS_TOO },
    { "every refusal that it can give, 100 times", every_refusal, 1, NONE }
};

static void try_part(unsigned number, uint64_t seed)
{
    enum need need = parts[number].need;
    char name[NAME_ROOM];
    unsigned i;

    if ((need == LISTS_TOO && parameters_of(tried) == files_of(tried))
        || (need == WORDS_TOO && tried->prepare == NULL))
        return;
    snprintf(name, sizeof name, "%s: %s", tried->name, parts[number].name);
    test_begin(name);
    for (i = 0; i < parts[number].turns; i++) {
        struct rng rng = rng_for(seed + SEEDS_APART * number, i);

        parts[number].attempt(&rng, i);
    }
    test_end();
}

int main(int argc, char **argv)
{
    uint64_t seed = options_begin(argc, argv);
    unsigned i, j;

    for (i = 0; i < OPERATIONS; i++) {
        tried = operations[i];
        for (j = 0; j < sizeof parts / sizeof *parts; j++)
            try_part(j, seed);
    }
    judge_designs();
    printf("%lu calls tried\n", trials_made());
    return !tests_end();
}
