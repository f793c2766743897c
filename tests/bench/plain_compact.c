/* The masks by whole sweeps, a pass that finds survivors, one that writes.
   Assumes a little-endian machine and gcc, as the benchmark does. */

#include <string.h>

#include "../model/model.h"
#include "../model/record.h"
#include "load.h"
#include "plain.h"
#include "plain_survivors.h"

/* The new numbers of the survivors; gives how many there are. */
static uint32_t renew_numbers(uint32_t count, const uint8_t *restrict survives,
                              uint16_t *restrict renewed)
{
    uint32_t left = 0, i;

    for (i = 0; i < count; i++) {
        renewed[i] = (uint16_t)left;
        left += survives[i];
    }
    return left;
}

/* The survivor at `p` becomes the record at `to`. */
static void write_survivor(const uint8_t *restrict p, uint64_t mask,
                           const uint16_t *restrict renewed,
                           uint8_t *restrict to)
{
    unsigned j;

    if (mask == 0 && p[0] != KIND_INPUT) {
        memset(to, 0, RECORD_BYTES);
        to[0] = KIND_CONSTANT;
        to[1] = p[1];
        return;
    }
    memcpy(to, p, 16);
    store_64(to + 16, load_64(p + 16) & mask);
    for (j = 0; j < operands[p[0]]; j++)
        write_16(to + 2 + 2 * j, renewed[read_16(p + 2 + 2 * j)]);
}

uint64_t plain_compact(const uint8_t *restrict file, size_t length,
                       uint64_t *restrict masks, size_t masks_words,
                       uint8_t *restrict destination,
                       size_t destination_length)
{
    uint8_t survives[COUNT_LIMIT], *to = destination + HEADER_BYTES;
    uint16_t renewed[COUNT_LIMIT];
    uint64_t answer;
    uint32_t count, left, i;

    if (destination_length != length) {
        answer = model_check(file, length);
        return answer >> 63 ? answer
            : model_refused(masks_words == answer ? 13 : 11, 0);
    }
    answer = plain_masks(file, length, (uint8_t *)masks, 8 * masks_words);
    if (answer >> 63)
        return answer;
    count = (uint32_t)masks_words;
    find_survivors(file, count, masks, survives);
    left = renew_numbers(count, survives, renewed);
    memcpy(destination, file, 6);
    write_16(destination + 6, left);
    for (i = 0; i < count; i++)
        if (survives[i]) {
            write_survivor(record_at(file, i), masks[i], renewed, to);
            to += RECORD_BYTES;
        }
    return (uint64_t)(to - destination);
}
