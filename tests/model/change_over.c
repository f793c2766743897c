/* The plain model's change over: states and pin words under their new numbers.
   Assumes that the file and the lists do not overlap. */

#include "board.h"
#include "model.h"
#include "record.h"
#include "survivors.h"

/* What the compacted file's board list has at a survivor. A register that has
   become a constant has mask 0. */
static uint64_t carried(const uint8_t *file, const uint64_t *masks,
                        const uint64_t *board, uint32_t number)
{
    switch (kind_at(file, number)) {
    case KIND_INPUT:
        return board[number];
    case KIND_REGISTER:
        return board[number] & masks[number];
    default:
        return 0;
    }
}

uint64_t model_change_over(const uint8_t *file, size_t length,
                           uint64_t *masks, size_t masks_words,
                           const uint64_t *board, size_t board_words,
                           uint64_t *new_board, size_t new_board_words)
{
    uint64_t answer = model_check(file, length);
    uint32_t count = (uint32_t)answer, i;
    struct survivors survivors;

    if (answer >> 63)
        return answer;
    if (masks_words != count || board_words != count
        || new_board_words != count)
        return model_refused(11, 0);
    answer = model_board_refusal(file, count, board);
    if (answer >> 63)
        return answer;
    model_survivors(file, length, masks, &survivors);
    for (i = 0; i < count; i++)
        new_board[i] = 0;
    for (i = 0; i < count; i++)
        if (survivors.survives[i])
            new_board[survivors.renewed[i]] = carried(file, masks, board, i);
    return 0;
}
