/* Counts which cases the pairs of runs met, and which kinds were scrambled.
   Assumes that the claim itself is judged elsewhere. */

#include <stdio.h>

#include "../harness/facts.h"
#include "../harness/report.h"
#include "pair.h"

enum { LEAST_SCRAMBLED = 200, LEAST_PAIRS = 5000 };

/* By the smallest masks, and by lists. */
static struct facts facts[2][SORTS];
static unsigned long pairs[2][SORTS], scrambled[2][KIND_COUNT];

static unsigned long sum(const unsigned long *counts, unsigned many)
{
    unsigned long all = 0;

    while (many-- > 0)
        all += counts[many];
    return all;
}

/* By the bits of pair.h. */
static const char *const met_names[MET_BITS] = {
    "a value differed outside its mask", "a word at an input differed",
    "a state differed outside its mask",
    "a state differed in a bit of its mask that the keep word clears",
    "an output was not 0", "a start in mid-run",
    "more cycles on end than registers", "the selector of a mux differed",
    "bits that a constant does away with differed"
};

void runs_note_pair(const struct masked *masked, unsigned sort,
                    const struct run *first, const struct run *second,
                    unsigned met)
{
    static const char *const refused_names[2][REFUSED_CYCLES] = {
        { "first run refused by 11", "by 12", "by 12 for its first state" },
        { "second run refused by 11", "by 12", "by 12 for its first state" }
    };
    int by_list = masked->by_list;
    struct facts *f = &facts[by_list][sort];
    unsigned i;

    pairs[by_list][sort]++;
    f->many = 0;
    for (i = 0; i < MET_BITS; i++)
        fact(f, met_names[i], met >> i & 1);
    for (i = 0; i < REFUSED_CYCLES; i++) {
        fact(f, refused_names[0][i], first->refused[i] != 0);
        fact(f, refused_names[1][i], second->refused[i] != 0);
    }
    if (sort != 0)
        fact(f, "so did the constant, outside its mask",
             (met & CONSTANT_DIFFERED) != 0);
    fact(f, "one run has more calls",
         sum(first->refused, REFUSED_CYCLES)
         != sum(second->refused, REFUSED_CYCLES));
    if (sort & TRIMMED)
        fact(f, "trimming changed a keep word", masked->cut > 0);
    if (sort & SCRAMBLED)
        fact(f, "scrambling changed a value",
             sum(second->scrambler.changed, KIND_COUNT) > 0);
    if (by_list)
        fact(f, "a bit outside the smallest masks was 1, and in the list",
             (met & MORE_NOT_ZERO) != 0);
    for (i = 0; i < KIND_COUNT; i++)
        scrambled[by_list][i] += second->scrambler.changed[i];
}

/* An output's mask is full, so there is nothing to scramble in it. */
static void judge_scrambled(int by_list)
{
    unsigned i;

    test_begin(by_list
               ? "coverage: by lists, enough pairs, every kind scrambled"
               : "coverage: enough pairs, every kind scrambled but for"
                 " outputs");
    printf("      pairs %lu, kinds", sum(pairs[by_list], SORTS));
    for (i = 0; i < KIND_COUNT; i++) {
        printf(" %lu", scrambled[by_list][i]);
        if (i == KIND_OUTPUT ? scrambled[by_list][i] != 0
                             : scrambled[by_list][i] < LEAST_SCRAMBLED)
            test_fail();
    }
    printf("\n");
    for (i = 0; i < SORTS; i++)
        if (pairs[by_list][i] < LEAST_PAIRS)
            test_fail();
    test_end();
}

void runs_coverage(void)
{
    char name[100];
    unsigned i;
    int by_list;

    for (by_list = 0; by_list < 2; by_list++) {
        for (i = 0; i < SORTS; i++) {
            sprintf(name, "coverage: %spairs with the %s",
                    by_list ? "by lists, " : "", sort_names[i]);
            judge_facts(name, &facts[by_list][i]);
        }
        judge_scrambled(by_list);
    }
}
