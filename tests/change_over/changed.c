/* Looks at every word of the new list that a change over has written.
   Assumes an accepted call; no model is asked. */

#include <string.h>

#include "../../include/pcn.h"
#include "../compact/survivors.h"
#include "../harness/operations.h"
#include "../harness/words.h"
#include "../masks/closed.h"

enum { LIST = 1 };

/* What is wrong with the word at a register that is still one, or null. */
static const char *state_fault(uint64_t state, uint64_t mask, uint64_t word)
{
    if ((word & ~mask) != 0)
        return "a state has a bit outside its mask";
    return ((word ^ state) & mask) == 0 ? NULL
        : "a state has another bit within its mask";
}

/* What is wrong with the word at a survivor, or null; `number` is that of the
   old file. */
static const char *word_fault(const uint8_t *file, const uint64_t *masks,
                              const uint64_t *board, uint32_t number,
                              uint64_t word)
{
    uint8_t kind = kind_at(file, number);

    if (kind == KIND_INPUT)
        return word == board[number] ? NULL
            : "an input's word has not gone along unchanged";
    if (kind == KIND_REGISTER && !is_emptied(file, masks, number))
        return state_fault(board[number], masks[number], word);
    return word == 0 ? NULL
        : "a word that is at no input and at no register is not 0";
}

static const char *list_fault(const struct lent *before,
                              const struct lent *after)
{
    const uint8_t *file = before->of[0].bytes;
    const uint64_t *masks = words_of(after, LIST);
    const uint64_t *board = words_of(before, OLD_BOARD);
    const uint64_t *made = words_of(after, NEW_BOARD);
    static uint32_t numbers[COUNT_LIMIT];
    uint32_t left = find_survivors(file, masks, numbers), i;
    const char *fault = NULL;

    for (i = 0; i < left && fault == NULL; i++)
        fault = word_fault(file, masks, board, numbers[i], made[i]);
    for (; i < read_16(file + 6) && fault == NULL; i++)
        if (made[i] != 0)
            fault = "a word behind the compacted file's records is not 0";
    return fault;
}

/* The first words, one for each record of the compacted file, are its board
   list, and 12 applies to none of them: a cycle goes on from there. */
static const char *cycle_fault(const struct argument *file,
                               const uint64_t *made)
{
    static uint8_t compacted[HEADER_BYTES + RECORD_BYTES * COUNT_LIMIT];
    static uint64_t masks[COUNT_LIMIT], board[COUNT_LIMIT], next[COUNT_LIMIT];
    uint32_t count = read_16(file->bytes + 6), left;
    uint64_t length = pcn_compact(file->bytes, file->length, masks, count,
                                  compacted, file->length);

    if (length > file->length)
        return "the file cannot be compacted";
    left = read_16(compacted + 6);
    memcpy(board, made, 8 * (size_t)left);
    return pcn_cycle(compacted, length, board, left, next, left) == 0 ? NULL
        : "a cycle of the compacted file does not accept the new list";
}

const char *judge_change_over(const struct lent *before,
                              const struct lent *after, uint64_t answer)
{
    const struct argument *file = &before->of[0];
    const char *fault = least_fault(file->bytes, words_of(after, LIST));

    if (fault == NULL)
        fault = list_fault(before, after);
    if (fault == NULL)
        fault = cycle_fault(file, words_of(after, NEW_BOARD));
    if (fault == NULL && answer != 0)
        fault = "an accepted change over does not answer 0";
    return fault;
}
