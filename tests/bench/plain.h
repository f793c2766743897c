/* The operations in plain C for speed: what the library is timed against.
   Assumes the same bytes in and out, and the same answers, as the library. */

#ifndef PLAIN_H
#define PLAIN_H

#include <stddef.h>
#include <stdint.h>

uint64_t plain_check(const uint8_t *file, size_t length);

uint64_t plain_masks(const uint8_t *file, size_t length, uint8_t *masks,
                     size_t masks_length);

uint64_t plain_trim(const uint8_t *file, size_t length, uint8_t *masks,
                    size_t masks_length, uint8_t *destination,
                    size_t destination_length);

uint64_t plain_trim_by(const uint8_t *file, size_t length,
                       const uint64_t *masks, size_t masks_words,
                       uint8_t *destination, size_t destination_length);

/* The record of refusal 14, for a list that is refused. */
uint32_t list_fault(const uint8_t *file, uint32_t count,
                    const uint64_t *masks);

uint64_t plain_compact(const uint8_t *file, size_t length, uint64_t *masks,
                       size_t masks_words, uint8_t *destination,
                       size_t destination_length);

uint64_t plain_start(const uint8_t *file, size_t length, uint64_t *board,
                     size_t board_words);

uint64_t plain_cycle(const uint8_t *file, size_t length, uint64_t *board,
                     size_t board_words, uint64_t *next, size_t next_words);

uint64_t plain_change_over(const uint8_t *file, size_t length,
                           uint64_t *masks, size_t masks_words,
                           const uint64_t *board, size_t board_words,
                           uint64_t *new_board, size_t new_board_words);

#endif
