/* Tries the meaning of every kind of 01 on the lists that a call left.
   Assumes that sums and products may be worked out slowly, bit by bit. */

#include "settled.h"

#include "../harness/words.h"

static unsigned bit_of(uint64_t word, unsigned bit)
{
    return word >> bit & 1;
}

/* The bit of a that a shift brings to this place, or what fills it. */
static unsigned moved_bit(const struct record *record, uint64_t a,
                          unsigned bit)
{
    unsigned k = (unsigned)record->k, top = record->width - 1u;

    if (record->kind == KIND_LEFT_SHIFT)
        return bit < k ? 0 : bit_of(a, bit - k);
    if (bit + k <= top)
        return bit_of(a, bit + k);
    return record->kind == KIND_RIGHT_SHIFT ? 0 : bit_of(a, top);
}

/* One bit of the result of a kind that moves or joins bits of a, b and c;
   `low` is the width of b. */
static unsigned joined_bit(const struct record *record, const uint64_t *words,
                           unsigned low, unsigned bit)
{
    uint64_t a = words[0], b = words[1];

    switch (record->kind) {
    case KIND_CONSTANT:
        return bit_of(record->k, bit);
    case KIND_OUTPUT:
        return bit_of(a, bit);
    case KIND_EXTRACT:
        return bit_of(a, bit + (unsigned)record->k);
    case KIND_CONCAT:
        return bit < low ? bit_of(b, bit) : bit_of(a, bit - low);
    case KIND_AND:
        return bit_of(a, bit) && bit_of(b, bit);
    case KIND_OR:
        return bit_of(a, bit) || bit_of(b, bit);
    case KIND_XOR:
        return bit_of(a, bit) != bit_of(b, bit);
    case KIND_MUX:
        return bit_of(bit_of(a, 0) ? b : words[2], bit);
    default:
        return moved_bit(record, a, bit);
    }
}

/* The carries are added again until there are none left. */
static uint64_t sum(uint64_t a, uint64_t b)
{
    while (b != 0) {
        uint64_t carries = (a & b) << 1;

        a ^= b;
        b = carries;
    }
    return a;
}

static uint64_t product(uint64_t a, uint64_t b)
{
    uint64_t all = 0;

    for (; b != 0; b >>= 1, a <<= 1)
        if (b & 1)
            all = sum(all, a);
    return all;
}

/* The highest bit in which they differ decides. */
static uint64_t is_below(uint64_t a, uint64_t b)
{
    unsigned bit = 64;

    while (bit-- > 0)
        if (bit_of(a, bit) != bit_of(b, bit))
            return bit_of(b, bit);
    return 0;
}

/* Of two with unlike top bits, the one that has it is negative. Else the bits
   below count as they do without a sign. */
static uint64_t is_signed_below(uint64_t a, uint64_t b, unsigned width)
{
    unsigned a_sign = bit_of(a, width - 1), b_sign = bit_of(b, width - 1);

    return a_sign != b_sign ? a_sign : is_below(a, b);
}

/* The comparisons have operands of one width, which is that of b. */
static uint64_t worked_out(uint8_t kind, uint64_t a, uint64_t b,
                           unsigned width)
{
    switch (kind) {
    case KIND_ADD:
        return sum(a, b);
    case KIND_SUB:
        return sum(a, sum(~b, 1));
    case KIND_MUL:
        return product(a, b);
    case KIND_EQUAL:
        return (a ^ b) == 0;
    case KIND_SIGNED_BELOW:
        return is_signed_below(a, b, width);
    default:
        return is_below(a, b);
    }
}

uint64_t settled_result(const struct lent *before, const struct lent *after,
                        uint32_t number)
{
    const uint8_t *file = before->of[0].bytes;
    struct record record = read_record(file, number);
    unsigned low = width_at(file, record.operand[1]);
    uint64_t words[3], word = 0;
    unsigned i;

    for (i = 0; i < 3; i++)
        words[i] = words_of(after, BOARD)[record.operand[i]];
    if (record.kind == KIND_INPUT || record.kind == KIND_REGISTER)
        return words_of(before, BOARD)[number];
    if (record.kind >= KIND_ADD && !kind_shifts(record.kind))
        return width_mask(record.width)
             & worked_out(record.kind, words[0], words[1], low);
    for (i = 0; i < record.width; i++)
        word |= (uint64_t)joined_bit(&record, words, low, i) << i;
    return word;
}

/* Whether a list has 0 beside the registers, and at each of them the value of
   its a or, without values, its reset state. */
static int holds_states(const struct lent *lent, unsigned list,
                        const uint64_t *values)
{
    const uint8_t *file = lent->of[0].bytes;
    uint32_t count = read_16(file + 6);
    uint32_t i;

    for (i = 0; i < count; i++) {
        struct record record = read_record(file, i);
        uint64_t state = values ? values[record.operand[0]] : record.k;

        if (words_of(lent, list)[i]
            != (record.kind == KIND_REGISTER ? state : 0))
            return 0;
    }
    return 1;
}

const char *judge_cycle(const struct lent *before, const struct lent *after,
                        uint64_t answer)
{
    const uint64_t *values = words_of(after, BOARD);
    uint32_t count = read_16(after->of[0].bytes + 6);
    uint32_t i;

    for (i = 0; i < count; i++)
        if (values[i] != (settled_result(before, after, i)
                          & read_record(after->of[0].bytes, i).keep))
            return "a value is not what its record's kind and keep word make";
    if (!holds_states(after, NEXT, values))
        return "the next list is not what the registers get, and else 0";
    return answer == 0 ? NULL : "an accepted cycle does not answer 0";
}

const char *judge_start(const struct lent *before, const struct lent *after,
                        uint64_t answer)
{
    (void)before;
    if (!holds_states(after, BOARD, NULL))
        return "the board list has not the reset states, and else 0";
    return answer == 0 ? NULL : "an accepted start does not answer 0";
}
