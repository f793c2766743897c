/* One pass that tests a mask list, its tally, and then the trimmed file.
   Assumes a little-endian machine and gcc, as the benchmark does. */

#include "../model/model.h"
#include "plain.h"
#include "plain_write.h"

typedef const uint64_t asked_list;

/* Gives the bits that the list lacks. */
static inline uint64_t ask(asked_list *masks, uint32_t number, uint64_t bits)
{
    return bits & ~masks[number];
}

#include "plain_asks.h"

/* Joins the bits that any mask lacks, or has beyond its width; 0 for a list
   that is accepted. */
static uint64_t wrong_bits(const uint8_t *file, uint32_t count,
                           const uint64_t *masks)
{
    const uint8_t *p = file + HEADER_BYTES;
    uint64_t wrong = 0;
    uint32_t i;

    for (i = 0; i < count; i++, p += RECORD_BYTES) {
        uint64_t full = ~(uint64_t)0 >> (64 - p[1]);
        uint64_t d = masks[i] & load_64(p + 16);

        wrong |= masks[i] & ~full;
        if (p[0] == KIND_OUTPUT)
            wrong |= masks[i] ^ full;
        if (d != 0)
            wrong |= ask_operands(file, p, d, masks);
    }
    return wrong;
}

uint64_t plain_trim_by(const uint8_t *restrict file, size_t length,
                       const uint64_t *restrict masks, size_t masks_words,
                       uint8_t *restrict destination,
                       size_t destination_length)
{
    uint64_t answer = model_check(file, length);
    uint64_t tally = 0;
    uint32_t count = (uint32_t)answer, i;

    if (answer >> 63)
        return answer;
    if (masks_words != count)
        return model_refused(11, 0);
    if (destination_length != length)
        return model_refused(13, 0);
    if (wrong_bits(file, count, masks) != 0)
        return model_refused(14, list_fault(file, count, masks));
    for (i = 0; i < count; i++)
        tally += ((uint64_t)width_at(file, i) << 32)
               + (uint64_t)__builtin_popcountll(masks[i]);
    write_trimmed(file, length, (const uint8_t *)masks, 8 * masks_words,
                  destination);
    return tally;
}
