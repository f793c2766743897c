/* Refusal 12, once it is known that a word of the board list is too wide.
   Assumes an accepted file, and a list with a word for each of its records. */

#ifndef PLAIN_WIDE_H
#define PLAIN_WIDE_H

#include "../model/record.h"

/* The lowest record whose word is too wide; there is one. */
static inline uint32_t too_wide(const uint8_t *file, const uint64_t *board)
{
    uint32_t i = 0;

    for (;; i++) {
        uint8_t kind = kind_at(file, i);

        if ((kind == KIND_INPUT || kind == KIND_REGISTER)
            && board[i] & ~width_mask(width_at(file, i)))
            return i;
    }
}

#endif
