/* The plain model: each operation of 01 once more, in straightforward C.
   Assumes nothing of the library under test; answers are laid out alike. */

#ifndef MODEL_H
#define MODEL_H

#include <stddef.h>
#include <stdint.h>

/* The answer for a refused call, as 01 lays it out. */
static inline uint64_t model_refused(unsigned refusal, uint32_t record)
{
    return ((uint64_t)1 << 63) + ((uint64_t)refusal << 32) + record;
}

/* The count of records, or the first refusal that applies. */
uint64_t model_check(const uint8_t *file, size_t length);

/* Fills the mask list and gives the tally; refused, it leaves the list as it
   was. The list and the file may not overlap. */
uint64_t model_masks(const uint8_t *file, size_t length, uint8_t *masks,
                     size_t masks_length);

/* Fills the mask list, writes the trimmed file to the destination and gives
   the tally; refused, it leaves both as they were. */
uint64_t model_trim(const uint8_t *file, size_t length, uint8_t *masks,
                    size_t masks_length, uint8_t *destination,
                    size_t destination_length);

/* Writes the file with each keep word cut to the mask of the list, which is
   only read, and gives the tally of the list; refused, it leaves the
   destination as it was. */
uint64_t model_trim_by(const uint8_t *file, size_t length,
                       const uint64_t *masks, size_t masks_words,
                       uint8_t *destination, size_t destination_length);

/* Fills the mask list, writes the compacted file to the front of the
   destination and gives its length; refused, it leaves both as they were. */
uint64_t model_compact(const uint8_t *file, size_t length, uint64_t *masks,
                       size_t masks_words, uint8_t *destination,
                       size_t destination_length);

/* Writes the reset states into the board list; accepted, it gives 0. Refused,
   it leaves the list as it was. */
uint64_t model_start(const uint8_t *file, size_t length, uint64_t *board,
                     size_t board_words);

/* One cycle: the values into the board list and the states that follow into
   the next list; accepted, it gives 0. Refused, it leaves both as they
   were. */
uint64_t model_cycle(const uint8_t *file, size_t length, uint64_t *board,
                     size_t board_words, uint64_t *next, size_t next_words);

/* Fills the mask list, and writes the board list of the compacted file to the
   front of the new list, with 0 behind it; accepted, it gives 0. Refused, it
   leaves both as they were. The board list is only read. */
uint64_t model_change_over(const uint8_t *file, size_t length,
                           uint64_t *masks, size_t masks_words,
                           const uint64_t *board, size_t board_words,
                           uint64_t *new_board, size_t new_board_words);

/* What a record's value is changed to as soon as it is there. */
typedef uint64_t model_change(void *context, uint32_t number, uint64_t value);

/* The same cycle with changed values: later records, the board list and the
   next list get what `change` gives. The changed values must stay within the
   widths. */
uint64_t model_changed_cycle(const uint8_t *file, size_t length,
                             uint64_t *board, size_t board_words,
                             uint64_t *next, size_t next_words,
                             model_change *change, void *context);

#endif
