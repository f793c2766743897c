/* Lists and files whose length is not the right one.
   Assumes a system that can map more than 32 GiB of untouched memory. */

#include <string.h>

#include "parts.h"

#define MOST_MORE ((size_t)1 << 35)

enum { LENGTHS = 22, NEAR = 8, NEAR_MORE = 60 };

/* Lengths, the right one first, in bytes or in words: so many times the right
   one, so many for each record, and so many more. The others are near it, or
   such as another measure would give, or longer than any file's. */
static const struct {
    int rights, records, more;
} lengths[LENGTHS] = {
    { 1, 0, 0 }, { 0, 0, 0 }, { 0, 1, 0 }, { 1, 0, 1 }, { 1, 0, -1 },
    { 1, 0, 7 }, { 1, 0, -7 }, { 1, 0, 8 }, { 1, 0, -8 }, { 1, 0, 16 },
    { 1, 0, 24 }, { 1, 0, -24 }, { 2, 0, 0 }, { 3, 0, 0 }, { 3, 0, 8 },
    { 0, 3, 1 }, { 0, 8, 0 }, { 0, 24, 0 }, { 0, 24, 8 },
    { 0, 0, 8 * 2049 }, { 0, 0, 65535 }, { 0, 0, 8 * 65535 }
};

/* One of the lengths, in bytes; there is none below 0. */
static size_t length_at(const struct lent *lent, unsigned list,
                        unsigned place)
{
    long unit = is_words(tried->parameters[list].sort) ? 8 : 1;
    long right = (long)right_length(tried, lent, list) / unit;
    long file = (long)lent->of[tried->parameters[list].file].length;
    long length = lengths[place].rights * right + lengths[place].more
        + lengths[place].records * (file / RECORD_BYTES);

    if (length < 0)
        length = -length;
    if (length * unit > FILE_ROOM)
        length = FILE_ROOM / unit;
    return (size_t)(length * unit);
}

static void set_length(struct rng *rng, struct lent *lent, unsigned list,
                       size_t length)
{
    struct argument *set = &lent->of[list];

    if (length > set->length)
        rng_fill(rng, set->bytes + set->length, length - set->length);
    set->length = length;
}

void draw_lengths(struct rng *rng, struct lent *lent)
{
    unsigned i;

    for (i = 0; i < parameters_of(tried); i++)
        if (is_measured(&tried->parameters[i]) && rng_once_in(rng, 2))
            set_length(rng, lent, i,
                       length_at(lent, i, rng_below(rng, LENGTHS)));
}

/* Demands the refusal of one wrong list, or of two that have the same one.
   Which of two refusals comes first is left to the model. */
static void demand_wrong(const struct lent *lent)
{
    uint64_t refusals = 0;
    unsigned refusal = 0;
    unsigned i;

    for (i = 0; i < parameters_of(tried); i++)
        if (is_measured(&tried->parameters[i])
            && lent->of[i].length != right_length(tried, lent, i)) {
            refusal = tried->parameters[i].refusal;
            refusals |= REFUSAL(refusal);
        }
    if (refusals == 0)
        try_accepted(lent);
    else if (refusals == REFUSAL(refusal))
        expect_refused(tried, lent, refusal, 0);
    else
        try_call(tried, lent);
}

/* One call with these lengths of two lists, or of one, half of the time with
   words and numbers that may be refused if the lengths are right. */
static void try_two(struct rng *rng, const unsigned *lists, size_t one,
                    size_t other)
{
    struct lent lent = lend(tried, rng, case_nets);
    int spoilt = tried->prepare != NULL && rng_once_in(rng, 2);

    if (spoilt)
        lend_spoilt(tried, rng, &lent);
    set_length(rng, &lent, lists[0], one);
    set_length(rng, &lent, lists[1], other);
    if (spoilt)
        try_call(tried, &lent);
    else
        demand_wrong(&lent);
}

/* Two lists, or the same one twice: every two lengths of the table, and in a
   small design the same length for both, up to some beyond the right one. */
static void try_lists(struct rng *rng, const struct lent *lent,
                      const unsigned *lists)
{
    size_t most = case_nets[0].count >= NEAR ? 0
        : right_length(tried, lent, lists[0])
          + right_length(tried, lent, lists[1]) + NEAR_MORE;
    size_t step = is_words(tried->parameters[lists[0]].sort)
        || is_words(tried->parameters[lists[1]].sort) ? 8 : 1;
    unsigned i, j;
    size_t length;

    for (i = 0; i < LENGTHS; i++)
        for (j = 0; j < LENGTHS; j++)
            if (lists[0] != lists[1] || i == j)
                try_two(rng, lists, length_at(lent, lists[0], i),
                        length_at(lent, lists[1], j));
    for (length = 0; length < most; length += step)
        try_two(rng, lists, length, length);
}

void wrong_lengths(struct rng *rng, unsigned turn)
{
    static const uint32_t counts[] = { 0, 1, 2, 3, 4, 5, 6, 7, 31, 32, 100,
                                       2047, 2048 };
    struct lent lent = make_case(rng, counts[turn], ALL_ALIKE);
    unsigned many = parameters_of(tried);
    unsigned lists[2];

    for (lists[0] = 0; lists[0] < many; lists[0]++)
        for (lists[1] = lists[0]; lists[1] < many; lists[1]++)
            if (is_measured(&tried->parameters[lists[0]])
                && is_measured(&tried->parameters[lists[1]]))
                try_lists(rng, &lent, lists);
}

/* A number that changes with any byte of what is lent, a list or a file that
   is too long being looked at as far as it was right. */
static uint64_t sum_of_bytes(const struct lent *lent, const struct lent *right)
{
    uint64_t sum = 0;
    size_t i, j;

    for (i = 0; i < PARAMETERS; i++)
        for (j = 0; j < right->of[i].length; j++)
            sum = (sum ^ lent->of[i].bytes[j]) * 0x100000001b3u;
    return sum;
}

/* A parameter that is right but for this many bytes more. */
static void try_huge(const struct lent *lent, unsigned parameter, size_t more)
{
    const struct parameter *huge = &tried->parameters[parameter];
    uint64_t right = refused_answer(huge->sort == A_FILE ? 5 : huge->refusal,
                                    0);
    uint64_t before = sum_of_bytes(lent, lent);
    struct lent longer = *lent;

    longer.of[parameter].bytes = memcpy(huge_memory(FILE_ROOM + MOST_MORE),
                                        lent->of[parameter].bytes,
                                        lent->of[parameter].length);
    longer.of[parameter].length += more;
    demand_answer(tried->library(&longer), right);
    demand_answer(tried->model(&longer), right);
    demand_answer(sum_of_bytes(&longer, lent), before);
}

/* A length that is cut to 32 bits, or is 8 times a cut count, would pass. */
void huge_lengths(struct rng *rng, unsigned turn)
{
    struct lent lent = make_case(rng, turn, ALL_ALIKE);
    unsigned i;

    for (i = 0; i < parameters_of(tried); i++)
        if (tried->parameters[i].sort == A_FILE
            || is_measured(&tried->parameters[i])) {
            try_huge(&lent, i, (size_t)1 << 32);
            try_huge(&lent, i, MOST_MORE);
        }
}
