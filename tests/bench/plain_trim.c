/* The masks by whole sweeps, a copy of the file, and then the keep words.
   Assumes a little-endian machine and gcc, as the benchmark does. */

#include "../model/model.h"
#include "plain.h"
#include "plain_write.h"

/* The refusal of a call whose destination has another length than the file;
   those of the file and of the mask list go before it. */
static uint64_t misfit(const uint8_t *file, size_t length,
                       size_t masks_length)
{
    uint64_t answer = model_check(file, length);

    if (answer >> 63)
        return answer;
    return model_refused(masks_length == 8 * answer ? 13 : 11, 0);
}

uint64_t plain_trim(const uint8_t *restrict file, size_t length,
                    uint8_t *restrict masks, size_t masks_length,
                    uint8_t *restrict destination, size_t destination_length)
{
    uint64_t answer;

    if (destination_length != length)
        return misfit(file, length, masks_length);
    answer = plain_masks(file, length, masks, masks_length);
    if (answer >> 63)
        return answer;
    write_trimmed(file, length, masks, masks_length, destination);
    return answer;
}
