/* What the model's compaction and its change over have in common.
   Assumes an accepted file, and a list with a word for each of its records. */

#ifndef MODEL_SURVIVORS_H
#define MODEL_SURVIVORS_H

#include "record.h"

/* The records that survive so far, those of them that are still to be looked
   at, and the new numbers once all survivors are known. */
struct survivors {
    uint8_t survives[COUNT_LIMIT];
    uint32_t list[COUNT_LIMIT];
    uint32_t waiting;
    uint32_t renewed[COUNT_LIMIT];
    uint32_t count;
};

/* Fills the mask list and finds all survivors with their new numbers. */
void model_survivors(const uint8_t *file, size_t length, uint64_t *masks,
                     struct survivors *survivors);

#endif
