/* The words looked over, the masks, the survivors, and a pass that carries.
   Assumes a little-endian machine and gcc, as the benchmark does. */

#include <string.h>

#include "../model/model.h"
#include "../model/record.h"
#include "plain.h"
#include "plain_survivors.h"
#include "plain_wide.h"

/* Joins the bits at or above the width of all words at inputs and registers,
   without a branch for the kinds. The file need not be accepted: then these
   are any bits. */
static uint64_t bits_beyond(const uint8_t *restrict file, size_t count,
                            const uint64_t *restrict board)
{
    const uint8_t *p = file + HEADER_BYTES;
    uint64_t beyond = 0;
    size_t i;

    for (i = 0; i < count; i++, p += RECORD_BYTES) {
        uint64_t given = 0 - (uint64_t)((p[0] == KIND_REGISTER)
                                        | (p[0] == KIND_INPUT));

        beyond |= board[i] >> ((p[1] - 1) & 63) >> 1 & given;
    }
    return beyond;
}

/* Why a call is refused in which the words are too wide, or the three counts
   and the length do not fit each other. */
static uint64_t refusal(const uint8_t *file, size_t length, int is_list,
                        const uint64_t *board)
{
    uint64_t answer = model_check(file, length);

    if (answer >> 63)
        return answer;
    return is_list ? model_refused(11, 0)
                   : model_refused(12, too_wide(file, board));
}

/* The new numbers rise with the old ones. The word of a record that goes is
   written over by the next one, or cleared with what is behind. */
static void carry(const uint8_t *restrict file, uint32_t count,
                  const uint64_t *restrict masks,
                  const uint8_t *restrict survives,
                  const uint64_t *restrict board, uint64_t *restrict new_board)
{
    const uint8_t *p = file + HEADER_BYTES;
    uint32_t left = 0, i;

    for (i = 0; i < count; i++, p += RECORD_BYTES) {
        uint64_t input = 0 - (uint64_t)(p[0] == KIND_INPUT);
        uint64_t state = 0 - (uint64_t)(p[0] == KIND_REGISTER);

        new_board[left] = board[i] & (input | (state & masks[i]));
        left += survives[i];
    }
    memset(new_board + left, 0, 8 * (size_t)(count - left));
}

uint64_t plain_change_over(const uint8_t *restrict file, size_t length,
                           uint64_t *restrict masks, size_t masks_words,
                           const uint64_t *restrict board, size_t board_words,
                           uint64_t *restrict new_board,
                           size_t new_board_words)
{
    uint8_t survives[COUNT_LIMIT];
    uint64_t answer;
    uint32_t count = (uint32_t)masks_words;
    int is_list = board_words != masks_words || new_board_words != masks_words
        || masks_words > COUNT_LIMIT
        || length != HEADER_BYTES + RECORD_BYTES * masks_words;

    if (is_list || bits_beyond(file, count, board) != 0)
        return refusal(file, length, is_list, board);
    answer = plain_masks(file, length, (uint8_t *)masks, 8 * masks_words);
    if (answer >> 63)
        return answer;
    find_survivors(file, count, masks, survives);
    carry(file, count, masks, survives, board, new_board);
    return 0;
}
