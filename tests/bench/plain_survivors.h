/* Finds the records that survive when a file is compacted, in one pass.
   Assumes an accepted file and its masks. */

#ifndef PLAIN_SURVIVORS_H
#define PLAIN_SURVIVORS_H

#include <string.h>

#include "../model/record.h"

/* How many operands each kind names: a, then b, then c. */
static const uint8_t operands[KIND_COUNT] = {
    0, 0, 1, 1, 1, 2, 2, 2, 2, 3, 2, 2, 2, 2, 2, 1, 1, 1, 2
};

/* Whoever has a mask that is not 0 has a reader that survives and is not made
   a constant. So it survives, and what it names does. An output's mask is
   never 0. */
static inline void find_survivors(const uint8_t *restrict file,
                                  uint32_t count,
                                  const uint64_t *restrict masks,
                                  uint8_t *restrict survives)
{
    const uint8_t *p = file + HEADER_BYTES;
    uint32_t i;
    unsigned j;

    memset(survives, 0, count);
    for (i = 0; i < count; i++, p += RECORD_BYTES) {
        if (p[0] == KIND_INPUT || p[0] == KIND_OUTPUT)
            survives[i] = 1;
        for (j = 0; masks[i] != 0 && j < operands[p[0]]; j++)
            survives[read_16(p + 2 + 2 * j)] = 1;
    }
}

#endif
