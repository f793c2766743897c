/* Draws mask lists: some bits first, and then all that they call for.
   Assumes that the judge's care rules are right; the model has its own. */

#include "lists.h"

#include "../masks/closed.h"
#include "designs.h"
#include "words.h"

enum { MOST_MORE = 4, OUTPUTS_ONE_IN = 8, ANY_ONE_IN = 4 };

/* What a record has in any case in a list of this sort. */
static uint64_t first_bits(struct rng *rng, unsigned width,
                           enum list_sort sort)
{
    switch (sort) {
    case MORE_OUTPUTS:
        return rng_once_in(rng, OUTPUTS_ONE_IN) ? width_mask(width) : 0;
    case ANY_BITS:
        return rng_once_in(rng, ANY_ONE_IN) ? design_word(rng, width) : 0;
    case ALL_BITS:
        return width_mask(width);
    default:
        return 0;
    }
}

static void add_bits(struct rng *rng, const uint8_t *file, uint64_t *list)
{
    uint32_t count = read_16(file + 6);
    uint32_t more = rng_between(rng, 1, MOST_MORE);

    while (count > 0 && more-- > 0) {
        uint32_t number = rng_below(rng, count);

        list[number] |= (uint64_t)1 << rng_below(rng, width_at(file, number));
    }
}

void draw_list(struct rng *rng, const uint8_t *file, uint64_t *list,
               enum list_sort sort)
{
    uint32_t count = read_16(file + 6), i;

    for (i = 0; i < count; i++)
        list[i] = first_bits(rng, width_at(file, i), sort);
    if (sort == MORE_BITS)
        add_bits(rng, file, list);
    close_list(file, list);
}

void prepare_list(struct rng *rng, const struct netlist *nets,
                  struct lent *lent)
{
    (void)nets;
    draw_list(rng, lent->of[0].bytes, words_of(lent, MASK_LIST),
              (enum list_sort)rng_below(rng, LIST_SORTS));
}
