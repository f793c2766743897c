/* The model's own program `masks`: a file from standard input, lines out.
   Assumes the layout of lines in 01; always ends with status 0. */

#include <inttypes.h>
#include <stdio.h>

#include "../model/model.h"
#include "../model/record.h"

/* One byte more than the longest file is enough to refuse it. */
enum { ROOM = HEADER_BYTES + RECORD_BYTES * COUNT_LIMIT + 1 };

int main(void)
{
    static uint8_t file[ROOM];
    static uint8_t masks[8 * COUNT_LIMIT];
    size_t length = fread(file, 1, ROOM, stdin);
    uint64_t answer = model_check(file, length);
    uint32_t count, i;

    if (answer >> 63) {
        printf("refused %" PRIu64 " record %" PRIu64 "\n",
               answer >> 32 & 0x7fffffff, answer & 0xffffffffu);
        return 0;
    }
    count = (uint32_t)answer;
    answer = model_masks(file, length, masks, 8 * (size_t)count);
    printf("%" PRIu32 " %" PRIu64 " %" PRIu64 "\n", count, answer >> 32,
           answer & 0xffffffffu);
    for (i = 0; i < count; i++)
        printf("%" PRIu32 " %u %016" PRIx64 "\n", i, width_at(file, i),
               read_64(masks + 8 * (size_t)i));
    return 0;
}
