/* Where the memory of a call lies, what it held, and what was called before.
   Assumes calls that are accepted, so that all that may be written is. */

#include <string.h>

#include "parts.h"

enum {
    DESIGNS = 200, /* counts of records from 0 on, and then the limit */
    ALIGNED = 20,  /* records of the design that is tried at many places */
    PLACES = 16,
    FILLINGS = 4,
    BLOCK_WORDS = 1 << 19
};

void memory_forbidden(struct rng *rng, unsigned turn)
{
    static const struct placing both[2] = {
        { AT_END, { 0 } }, { AT_FRONT, { 0 } }
    };
    struct lent lent = make_case(rng, turn < DESIGNS ? turn : COUNT_LIMIT,
                                 turn);

    try_placings(tried, &lent, both, 2);
    try_accepted(&lent);
}

/* Every parameter at any of its places, at either edge. All turns together try
   more placings than there are ways in which three places can meet. */
void memory_alignments(struct rng *rng, unsigned turn)
{
    struct lent lent = make_case(rng, ALIGNED, turn);
    struct placing placings[2 * PLACES];
    unsigned i, j;

    for (i = 0; i < 2 * PLACES; i++) {
        placings[i].edge = i % 2 == 0 ? AT_END : AT_FRONT;
        for (j = 0; j < PARAMETERS; j++)
            placings[i].away[j] = rng_below(rng, PLACES);
    }
    try_placings(tried, &lent, placings, 2 * PLACES);
}

/* The same call with its memory in one block, in one of its orders: from each
   parameter on, forwards and backwards, which are all orders of up to three.
   There is no gap but before a list of words that would not be aligned. All
   can be written here, so a change of a file, or of one list through another,
   shows and does not trap. */
static struct lent put_beside(const struct lent *lent, unsigned order)
{
    static uint64_t block[BLOCK_WORDS];
    uint8_t *bytes = (uint8_t *)block;
    struct lent beside = *lent;
    unsigned many = parameters_of(tried);
    size_t at = 0;
    unsigned i;

    for (i = 0; i < many; i++) {
        unsigned next = (order + i) % many;
        unsigned place = order < many ? next : many - 1 - next;

        if (!is_memory(tried->parameters[place].sort))
            continue;
        if (is_words(tried->parameters[place].sort))
            at = (at + 7) / 8 * 8;
        beside.of[place].bytes = memcpy(bytes + at, lent->of[place].bytes,
                                        lent->of[place].length);
        at += lent->of[place].length;
    }
    return beside;
}

static void try_beside(const struct lent *lent, unsigned order)
{
    struct lent beside = put_beside(lent, order);

    judge_call(tried, lent, &beside, tried->library(&beside));
}

void memory_neighbours(struct rng *rng, unsigned turn)
{
    struct lent lent = make_case(rng, turn, ALL_ALIKE);
    unsigned order;

    for (order = 0; order < 2 * parameters_of(tried); order++)
        try_beside(&lent, order);
}

/* Fills all that is written, each list with another of the bytes or, where it
   is as long as a file, with that file; then the words that matter are put in
   again. */
static void fill_written(struct rng *rng, struct lent *lent, unsigned filling)
{
    static const int fillings[FILLINGS] = { 0x00, 0xff, 0x55, 0x01 };
    unsigned i;

    for (i = 0; i < parameters_of(tried); i++) {
        const struct parameter *list = &tried->parameters[i];
        uint8_t *bytes = lent->of[i].bytes;

        if (!is_written(list->sort))
            continue;
        memset(bytes, fillings[(filling + i) % FILLINGS], lent->of[i].length);
        if (filling >= FILLINGS && list->measure == LENGTH_OF_FILE)
            memcpy(bytes, lent->of[list->file].bytes, lent->of[i].length);
    }
    if (tried->prepare != NULL)
        tried->prepare(rng, case_nets, lent);
}

/* The second call of two equal ones finds what the first one left. */
void memory_old_contents(struct rng *rng, unsigned turn)
{
    struct lent lent = make_case(rng, turn, ALL_ALIKE);
    unsigned filling;

    for (filling = 0; filling <= FILLINGS; filling++) {
        fill_written(rng, &lent, filling);
        try_accepted(&lent);
        try_call(tried, &lent);
    }
}

/* Calls that are refused for a shorter length, an accepted one, and one of
   the same files with a byte changed, which is refused or not. */
static void call_before(struct rng *rng, const struct lent *lent)
{
    struct lent beside = put_beside(lent, 0);
    unsigned i;

    for (i = 0; i < parameters_of(tried); i++) {
        struct lent shorter = beside;

        shorter.of[i].length = shorter.of[i].length / 16 * 8;
        tried->library(&shorter);
    }
    try_beside(lent, 0);
    for (i = 0; i < parameters_of(tried); i++)
        if (tried->parameters[i].sort == A_FILE)
            lent->of[i].bytes[rng_below(rng, (uint32_t)lent->of[i].length)]
                ^= 255;
    try_beside(lent, 0);
}

/* Calls of another design of the same size in the same memory come before. */
void memory_earlier_calls(struct rng *rng, unsigned turn)
{
    struct lent lent = make_case(rng, turn, ALL_ALIKE);

    call_before(rng, &lent);
    lent = make_case(rng, turn, ALL_ALIKE);
    try_beside(&lent, 0);
}
