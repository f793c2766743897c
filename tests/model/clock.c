/* The plain model's start and cycle on lists of words.
   Assumes that the file and the lists do not overlap. */

#include "board.h"
#include "model.h"
#include "record.h"

/* In two's complement the words with a top bit are the negative numbers. With
   that bit flipped they stand below the others, and all in their order. */
static int signed_below(uint64_t a, uint64_t b, unsigned width)
{
    uint64_t top = (uint64_t)1 << (width - 1);

    return (a ^ top) < (b ^ top);
}

/* Sums, differences and products modulo 2^64, of which the width takes the
   low bits, and the comparisons; `width` is that of a. */
static uint64_t worked_out(uint8_t kind, uint64_t a, uint64_t b,
                           unsigned width)
{
    switch (kind) {
    case KIND_ADD:
        return a + b;
    case KIND_SUB:
        return a - b;
    case KIND_MUL:
        return a * b;
    case KIND_EQUAL:
        return a == b;
    case KIND_SIGNED_BELOW:
        return signed_below(a, b, width);
    default:
        return a < b;
    }
}

/* a moved by k places, which are fewer than its width. The arithmetic shift
   fills the places that become free with copies of the top bit. */
static uint64_t shifted(const struct record *record, uint64_t a)
{
    uint64_t full = width_mask(record->width);
    uint64_t free_places = full & ~(full >> record->k);
    int is_negative = a >> (record->width - 1) & 1;

    if (record->kind == KIND_LEFT_SHIFT)
        return (a << record->k) & full;
    if (record->kind == KIND_ARITHMETIC_SHIFT && is_negative)
        return a >> record->k | free_places;
    return a >> record->k;
}

/* The record's result, before its keep word clears bits. The board holds the
   values of the earlier records, and an input's or register's own word. An
   unused operand is 0 and names a word of the board all the same. */
static uint64_t result(const uint8_t *file, uint32_t number,
                       const uint64_t *board)
{
    struct record record = read_record(file, number);
    uint64_t full = width_mask(record.width);
    uint64_t a = board[record.operand[0]];
    uint64_t b = board[record.operand[1]];
    uint64_t c = board[record.operand[2]];

    switch (record.kind) {
    case KIND_INPUT:
    case KIND_REGISTER:
        return board[number];
    case KIND_CONSTANT:
        return record.k;
    case KIND_OUTPUT:
        return a;
    case KIND_EXTRACT:
        return a >> record.k & full;
    case KIND_CONCAT:
        return a << width_at(file, record.operand[1]) | b;
    case KIND_AND:
        return a & b;
    case KIND_OR:
        return a | b;
    case KIND_XOR:
        return a ^ b;
    case KIND_MUX:
        return a == 1 ? b : c;
    case KIND_LEFT_SHIFT:
    case KIND_RIGHT_SHIFT:
    case KIND_ARITHMETIC_SHIFT:
        return shifted(&record, a);
    default:
        return worked_out(record.kind, a, b,
                          width_at(file, record.operand[0])) & full;
    }
}

/* Whether the word at this record is given to a cycle by its caller. */
static int is_given(const uint8_t *file, uint32_t number)
{
    return kind_at(file, number) == KIND_INPUT
        || kind_at(file, number) == KIND_REGISTER;
}

uint64_t model_board_refusal(const uint8_t *file, uint32_t count,
                             const uint64_t *board)
{
    uint32_t i;

    for (i = 0; i < count; i++)
        if (is_given(file, i)
            && (board[i] & ~width_mask(width_at(file, i))) != 0)
            return model_refused(12, i);
    return 0;
}

uint64_t model_start(const uint8_t *file, size_t length, uint64_t *board,
                     size_t board_words)
{
    uint64_t answer = model_check(file, length);
    uint32_t count = (uint32_t)answer, i;

    if (answer >> 63)
        return answer;
    if (board_words != count)
        return model_refused(11, 0);
    for (i = 0; i < count; i++) {
        struct record record = read_record(file, i);

        board[i] = record.kind == KIND_REGISTER ? record.k : 0;
    }
    return 0;
}

/* The values of all records in rising order, each changed at once. */
static void work_out(const uint8_t *file, uint32_t count, uint64_t *board,
                     model_change *change, void *context)
{
    uint32_t i;

    for (i = 0; i < count; i++) {
        uint64_t value = result(file, i, board) & read_record(file, i).keep;

        board[i] = change(context, i, value);
    }
}

uint64_t model_changed_cycle(const uint8_t *file, size_t length,
                             uint64_t *board, size_t board_words,
                             uint64_t *next, size_t next_words,
                             model_change *change, void *context)
{
    uint64_t answer = model_check(file, length);
    uint32_t count = (uint32_t)answer, i;

    if (answer >> 63)
        return answer;
    if (board_words != count || next_words != count)
        return model_refused(11, 0);
    answer = model_board_refusal(file, count, board);
    if (answer >> 63)
        return answer;
    work_out(file, count, board, change, context);
    for (i = 0; i < count; i++) {
        struct record record = read_record(file, i);

        next[i] = record.kind == KIND_REGISTER
            ? board[record.operand[0]] : 0;
    }
    return 0;
}

static uint64_t unchanged(void *context, uint32_t number, uint64_t value)
{
    (void)context;
    (void)number;
    return value;
}

uint64_t model_cycle(const uint8_t *file, size_t length, uint64_t *board,
                     size_t board_words, uint64_t *next, size_t next_words)
{
    return model_changed_cycle(file, length, board, board_words, next,
                               next_words, unchanged, NULL);
}
