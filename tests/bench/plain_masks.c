/* Sweeps back over all records until one adds no bit, written for speed.
   Assumes a little-endian machine and gcc, as the benchmark does. */

#include <string.h>

#include "../model/model.h"
#include "../model/record.h"
#include "load.h"
#include "plain.h"

typedef uint64_t asked_list;

/* Joins the bits to a mask and gives those that are new. */
static inline uint64_t ask(asked_list *masks, uint32_t number, uint64_t bits)
{
    uint64_t added = bits & ~masks[number];

    masks[number] |= bits;
    return added;
}

#include "plain_asks.h"

/* One sweep; gives 0 when it added no bit. */
static uint64_t sweep(const uint8_t *restrict file, uint32_t count,
                      uint64_t *restrict masks)
{
    const uint8_t *p = record_at(file, count);
    uint64_t added = 0;
    uint32_t i = count;

    while (i-- > 0) {
        uint64_t d;

        p -= RECORD_BYTES;
        d = masks[i] & load_64(p + 16);
        if (d != 0)
            added |= ask_operands(file, p, d, masks);
    }
    return added;
}

uint64_t plain_masks(const uint8_t *file, size_t length, uint8_t *masks,
                     size_t masks_length)
{
    uint64_t words[COUNT_LIMIT];
    uint64_t answer = model_check(file, length);
    uint64_t tally = 0;
    uint32_t count = (uint32_t)answer, i;

    if (answer >> 63)
        return answer;
    if (masks_length != 8 * (size_t)count)
        return model_refused(11, 0);
    for (i = 0; i < count; i++) {
        words[i] = 0;
        if (kind_at(file, i) == KIND_OUTPUT)
            words[i] = width_mask(width_at(file, i));
    }
    while (sweep(file, count, words) != 0)
        ;
    for (i = 0; i < count; i++)
        tally += ((uint64_t)width_at(file, i) << 32)
               + (uint64_t)__builtin_popcountll(words[i]);
    memcpy(masks, words, masks_length);
    return tally;
}
