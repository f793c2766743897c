/* The plain model's trimming: a copy of the file in which each keep word is D.
   Assumes that the file, the list and the destination do not overlap. */

#include "care.h"
#include "model.h"
#include "record.h"

enum { KEEP_AT = 16 };

static void write_trimmed(const uint8_t *file, size_t length,
                          const uint64_t *masks, uint8_t *destination)
{
    uint32_t count = read_16(file + 6), i;
    size_t j;

    for (j = 0; j < length; j++)
        destination[j] = file[j];
    for (i = 0; i < count; i++) {
        size_t at = HEADER_BYTES + (size_t)RECORD_BYTES * i + KEEP_AT;

        write_64(destination + at, masks[i] & read_64(file + at));
    }
}

uint64_t model_trim(const uint8_t *file, size_t length, uint8_t *masks,
                    size_t masks_length, uint8_t *destination,
                    size_t destination_length)
{
    uint64_t answer = model_check(file, length);
    uint32_t count = (uint32_t)answer, i;
    uint64_t words[COUNT_LIMIT];

    if (answer >> 63)
        return answer;
    if (masks_length != 8 * (size_t)count)
        return model_refused(11, 0);
    if (destination_length != length)
        return model_refused(13, 0);
    answer = model_masks(file, length, masks, masks_length);
    for (i = 0; i < count; i++)
        words[i] = read_64(masks + 8 * (size_t)i);
    write_trimmed(file, length, words, destination);
    return answer;
}

/* Refusal 14 for the lowest record it applies to, or 0. */
static uint64_t list_refusal(const uint8_t *file, uint32_t count,
                             const uint64_t *masks)
{
    uint64_t called[COUNT_LIMIT];
    uint32_t i;

    model_called_for(file, count, masks, called);
    for (i = 0; i < count; i++)
        if ((called[i] & ~masks[i]) != 0
            || (masks[i] & ~width_mask(width_at(file, i))) != 0)
            return model_refused(14, i);
    return 0;
}

uint64_t model_trim_by(const uint8_t *file, size_t length,
                       const uint64_t *masks, size_t masks_words,
                       uint8_t *destination, size_t destination_length)
{
    uint64_t answer = model_check(file, length);
    uint32_t count = (uint32_t)answer;

    if (answer >> 63)
        return answer;
    if (masks_words != count)
        return model_refused(11, 0);
    if (destination_length != length)
        return model_refused(13, 0);
    answer = list_refusal(file, count, masks);
    if (answer >> 63)
        return answer;
    write_trimmed(file, length, masks, destination);
    return model_tally(file, count, masks);
}
