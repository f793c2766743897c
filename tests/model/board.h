/* What the model's cycle and its change over have in common.
   Assumes an accepted file, and a list with a word for each of its records. */

#ifndef MODEL_BOARD_H
#define MODEL_BOARD_H

#include <stdint.h>

/* Refusal 12 for the lowest record it applies to, or 0. */
uint64_t model_board_refusal(const uint8_t *file, uint32_t count,
                             const uint64_t *board);

#endif
