/* One switch for each record of an accepted file, in place on the lists.
   Assumes a little-endian machine and gcc, as the benchmark does. */

#include <string.h>

#include "../model/model.h"
#include "../model/record.h"
#include "load.h"
#include "plain.h"
#include "plain_wide.h"

/* The word of the record whose number stands at `p`. */
static inline uint64_t operand(const uint64_t *list, const uint8_t *p)
{
    return list[read_16(p)];
}

/* Joins the bits at or above the width of all words given to the cycle, and
   lists the registers. No branch hangs on the kinds, which come in no order
   that could be foreseen. */
static uint64_t look_over(const uint8_t *restrict file, uint32_t count,
                          const uint64_t *restrict board,
                          uint16_t *restrict registers, uint32_t *found)
{
    const uint8_t *p = file + HEADER_BYTES;
    uint64_t beyond = 0;
    uint32_t number = 0;
    uint32_t i;

    for (i = 0; i < count; i++, p += RECORD_BYTES) {
        int is_register = p[0] == KIND_REGISTER;
        uint64_t given = 0 - (uint64_t)(is_register | (p[0] == KIND_INPUT));

        beyond |= board[i] >> (p[1] - 1) >> 1 & given;
        registers[number] = (uint16_t)i;
        number += (uint32_t)is_register;
    }
    *found = number;
    return beyond;
}

/* a above b. */
static inline uint64_t joined(const uint8_t *file, const uint8_t *p,
                              const uint64_t *board)
{
    return operand(board, p + 2) << width_at(file, read_16(p + 4))
         | operand(board, p + 4);
}

/* The word as a number with a sign, times a power of two: the top bit of its
   width is moved to bit 63. */
static inline int64_t raised(uint64_t word, unsigned width)
{
    return (int64_t)(word << (64 - width));
}

/* The word moved down by k places; gcc copies the sign of a number then. */
static inline uint64_t copying_shift(uint64_t word, unsigned width, unsigned k)
{
    return (uint64_t)(raised(word, width) >> (64 - width + k));
}

static inline int signed_below(const uint8_t *file, const uint8_t *p,
                               const uint64_t *board)
{
    unsigned width = width_at(file, read_16(p + 2));

    return raised(operand(board, p + 2), width)
         < raised(operand(board, p + 4), width);
}

/* The result of the record at `p`, whose own word is `own`. The keep word
   that is put on it later has no bit beyond the width, so nothing else needs
   to cut it. The k of an output is 0. An input or register has its word. */
static inline uint64_t result(const uint8_t *file, const uint8_t *p,
                              const uint64_t *board, uint64_t own)
{
    switch (p[0]) {
    case KIND_CONSTANT:
        return load_64(p + 8);
    case KIND_OUTPUT:
    case KIND_EXTRACT:
    case KIND_RIGHT_SHIFT:
        return operand(board, p + 2) >> p[8];
    case KIND_CONCAT:
        return joined(file, p, board);
    case KIND_AND:
        return operand(board, p + 2) & operand(board, p + 4);
    case KIND_OR:
        return operand(board, p + 2) | operand(board, p + 4);
    case KIND_XOR:
        return operand(board, p + 2) ^ operand(board, p + 4);
    case KIND_MUX:
        return operand(board, operand(board, p + 2) ? p + 4 : p + 6);
    case KIND_ADD:
        return operand(board, p + 2) + operand(board, p + 4);
    case KIND_SUB:
        return operand(board, p + 2) - operand(board, p + 4);
    case KIND_MUL:
        return operand(board, p + 2) * operand(board, p + 4);
    case KIND_EQUAL:
        return operand(board, p + 2) == operand(board, p + 4);
    case KIND_BELOW:
        return operand(board, p + 2) < operand(board, p + 4);
    case KIND_LEFT_SHIFT:
        return operand(board, p + 2) << p[8];
    case KIND_ARITHMETIC_SHIFT:
        return copying_shift(operand(board, p + 2), p[1], p[8]);
    case KIND_SIGNED_BELOW:
        return (uint64_t)signed_below(file, p, board);
    default:
        return own;
    }
}

uint64_t plain_start(const uint8_t *file, size_t length, uint64_t *board,
                     size_t board_words)
{
    uint64_t answer = model_check(file, length);
    uint32_t count = (uint32_t)answer, i;
    const uint8_t *p = file + HEADER_BYTES;

    if (answer >> 63)
        return answer;
    if (board_words != count)
        return model_refused(11, 0);
    for (i = 0; i < count; i++, p += RECORD_BYTES)
        board[i] = load_64(p + 8) & (0 - (uint64_t)(p[0] == KIND_REGISTER));
    return 0;
}

uint64_t plain_cycle(const uint8_t *restrict file, size_t length,
                     uint64_t *restrict board, size_t board_words,
                     uint64_t *restrict next, size_t next_words)
{
    uint64_t answer = model_check(file, length);
    uint32_t count = (uint32_t)answer, registers_found, i;
    uint16_t registers[COUNT_LIMIT + 1];
    const uint8_t *p = file + HEADER_BYTES;

    if (answer >> 63)
        return answer;
    if (board_words != count || next_words != count)
        return model_refused(11, 0);
    if (look_over(file, count, board, registers, &registers_found) != 0)
        return model_refused(12, too_wide(file, board));
    for (i = 0; i < count; i++, p += RECORD_BYTES)
        board[i] = result(file, p, board, board[i]) & load_64(p + 16);
    memset(next, 0, 8 * next_words);
    for (i = 0; i < registers_found; i++)
        next[registers[i]] = operand(board,
                                     record_at(file, registers[i]) + 2);
    return 0;
}
