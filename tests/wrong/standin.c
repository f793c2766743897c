/* The stand-in for the library: the plain model, and room for a fault.
   Assumes a macro for code before and after each operation, mostly empty. */

#include <string.h>

#include "../../include/pcn.h"
#include "../model/model.h"

/* For use in that code. */
#define REFUSED (answer >> 63)
#define REFUSED_BY(number) (answer >> 32 == 0x80000000u + (number))
#define COUNT (file[6] + 256u * file[7])
#define WRITE(bytes) (*(volatile uint8_t *)(bytes) = *(uint8_t *)(bytes))
#define DOWN_TO(bytes, pointer) \
    (pointer = (void *)((uintptr_t)(pointer) & ~(uintptr_t)((bytes) - 1)))

volatile uint64_t standin_read;

uint64_t pcn_check(const uint8_t *file, size_t length)
{
    uint64_t answer;

    check_before
    answer = model_check(file, length);
    check_after
    return answer;
}

uint64_t pcn_masks(const uint8_t *file, size_t length, uint8_t *masks,
                   size_t masks_length)
{
    uint64_t answer;

    masks_before
    answer = model_masks(file, length, masks, masks_length);
    masks_after
    return answer;
}

uint64_t pcn_trim(const uint8_t *file, size_t length, uint8_t *masks,
                  size_t masks_length, uint8_t *destination,
                  size_t destination_length)
{
    uint64_t answer;

    trim_before
    answer = model_trim(file, length, masks, masks_length, destination,
                        destination_length);
    trim_after
    return answer;
}

uint64_t pcn_trim_by(const uint8_t *file, size_t length, const uint64_t *masks,
                     size_t masks_words, uint8_t *destination,
                     size_t destination_length)
{
    uint64_t answer;

    trim_by_before
    answer = model_trim_by(file, length, masks, masks_words, destination,
                           destination_length);
    trim_by_after
    return answer;
}

uint64_t pcn_compact(const uint8_t *file, size_t length, uint64_t *masks,
                     size_t masks_words, uint8_t *destination,
                     size_t destination_length)
{
    uint64_t answer;

    compact_before
    answer = model_compact(file, length, masks, masks_words, destination,
                           destination_length);
    compact_after
    return answer;
}

uint64_t pcn_start(const uint8_t *file, size_t length, uint64_t *board,
                   size_t board_words)
{
    uint64_t answer;

    start_before
    answer = model_start(file, length, board, board_words);
    start_after
    return answer;
}

uint64_t pcn_cycle(const uint8_t *file, size_t length, uint64_t *board,
                   size_t board_words, uint64_t *next, size_t next_words)
{
    uint64_t answer;

    cycle_before
    answer = model_cycle(file, length, board, board_words, next, next_words);
    cycle_after
    return answer;
}

uint64_t pcn_change_over(const uint8_t *file, size_t length, uint64_t *masks,
                         size_t masks_words, const uint64_t *board,
                         size_t board_words, uint64_t *new_board,
                         size_t new_board_words)
{
    uint64_t answer;

    change_over_before
    answer = model_change_over(file, length, masks, masks_words, board,
                               board_words, new_board, new_board_words);
    change_over_after
    return answer;
}
