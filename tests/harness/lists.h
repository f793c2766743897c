/* Mask lists that trimming by a list accepts, whoever could have made them.
   Assumes an accepted file, and a list with a word for each of its records. */

#ifndef LISTS_H
#define LISTS_H

#include "operation.h"

/* The smallest masks, also with a few bits more, or with all bits of some
   records, as if outputs read them, or with any bits at any records; and all
   bits of each. What is called for is added to each. */
enum list_sort { SMALLEST, MORE_BITS, MORE_OUTPUTS, ANY_BITS, ALL_BITS,
                 LIST_SORTS };

void draw_list(struct rng *rng, const uint8_t *file, uint64_t *list,
               enum list_sort sort);

/* The parameter of trimming by a list that is the list. */
enum { MASK_LIST = 1 };

/* One of these as the mask list. */
void prepare_list(struct rng *rng, const struct netlist *nets,
                  struct lent *lent);

#endif
