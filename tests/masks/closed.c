/* Works out what the care rules of 01 call for, and so the least masks.
   Assumes an accepted file, and a list with a word for each of its records. */

#include "closed.h"

#include <string.h>

#include "../harness/operations.h"

/* What all records together ask of each, the bits for which each has asked its
   operands, and whether more was asked since this was last cleared. */
static uint64_t asked[COUNT_LIMIT], passed_on[COUNT_LIMIT];
static int is_more;

static void ask(uint32_t number, unsigned lowest, unsigned highest)
{
    uint64_t bits = ~(uint64_t)0 >> (63 - highest) & ~(uint64_t)0 << lowest;

    is_more |= (bits & ~asked[number]) != 0;
    asked[number] |= bits;
}

/* What this bit of the D of a concat asks. */
static void ask_for_part(const uint8_t *file, const struct record *record,
                         unsigned bit)
{
    unsigned low = width_at(file, record->operand[1]);

    if (bit < low)
        ask(record->operand[1], bit, bit);
    else
        ask(record->operand[0], bit - low, bit - low);
}

/* What this bit of the D of an extract or a shift asks: the bit that is moved
   to its place, if there is one, and the top bit where copies of it stand. */
static void ask_for_moved(const uint8_t *file, const struct record *record,
                          unsigned bit)
{
    uint32_t a = record->operand[0];
    unsigned w = width_at(file, a), k = (unsigned)record->k;

    if (record->kind == KIND_LEFT_SHIFT) {
        if (bit >= k)
            ask(a, bit - k, bit - k);
        return;
    }
    if (bit + k < w)
        ask(a, bit + k, bit + k);
    if (record->kind == KIND_ARITHMETIC_SHIFT && bit >= w - k)
        ask(a, w - 1, w - 1);
}

/* Whether operand i of an and or an or is a constant that settles this bit
   alone: by a 0 in an and, by a 1 in an or. Of two constants neither does. */
static int settles(const uint8_t *file, const struct record *record,
                   unsigned i, unsigned bit)
{
    struct record one = read_record(file, record->operand[i]);
    int is_set = (one.k >> bit & 1) != 0 && (one.keep >> bit & 1) != 0;

    return one.kind == KIND_CONSTANT
        && kind_at(file, record->operand[1 - i]) != KIND_CONSTANT
        && is_set == (record->kind == KIND_OR);
}

/* What this bit of the D of an and or an or asks: of each operand the same
   bit, unless the other one settles it. */
static void ask_unsettled(const uint8_t *file, const struct record *record,
                          unsigned bit)
{
    unsigned i;

    for (i = 0; i < 2; i++)
        if (!settles(file, record, 1 - i, bit))
            ask(record->operand[i], bit, bit);
}

/* What this bit of the D of a mux, an xor, a sum or a comparison asks of the
   two operands that it asks alike, and a mux of its selector. */
static void ask_alike(const uint8_t *file, const struct record *record,
                      unsigned bit)
{
    uint32_t a = record->operand[0], b = record->operand[1];
    unsigned lowest = bit, highest = bit;

    switch (record->kind) {
    case KIND_MUX:
        ask(a, 0, 0);
        a = record->operand[2];
        break;
    case KIND_EQUAL:
    case KIND_BELOW:
    case KIND_SIGNED_BELOW:
        highest = width_at(file, a) - 1u;
        /* Fall through. */
    case KIND_ADD:
    case KIND_SUB:
    case KIND_MUL:
        lowest = 0;
    }
    ask(a, lowest, highest);
    ask(b, lowest, highest);
}

/* What this bit of D asks of the operands. */
static void ask_for_bit(const uint8_t *file, const struct record *record,
                        unsigned bit)
{
    switch (record->kind) {
    case KIND_INPUT:
    case KIND_CONSTANT:
        return;
    case KIND_REGISTER:
    case KIND_OUTPUT:
        ask(record->operand[0], bit, bit);
        return;
    case KIND_CONCAT:
        ask_for_part(file, record, bit);
        return;
    case KIND_AND:
    case KIND_OR:
        ask_unsettled(file, record, bit);
        return;
    case KIND_EXTRACT:
    case KIND_LEFT_SHIFT:
    case KIND_RIGHT_SHIFT:
    case KIND_ARITHMETIC_SHIFT:
        ask_for_moved(file, record, bit);
        return;
    default:
        ask_alike(file, record, bit);
    }
}

/* An output has all its bits. */
static void ask_for_itself(const struct record *record, uint32_t number)
{
    if (record->kind == KIND_OUTPUT)
        ask(number, 0, record->width - 1u);
}

/* What these bits of D ask of the operands. */
static void ask_for_bits(const uint8_t *file, const struct record *record,
                         uint64_t d)
{
    unsigned bit;

    for (bit = 0; bit < 64 && d >> bit != 0; bit++)
        if (d >> bit & 1)
            ask_for_bit(file, record, bit);
}

/* What D asks for was asked before but for its new bits. */
static void ask_for_all(const uint8_t *file, uint32_t number)
{
    struct record record = read_record(file, number);
    uint64_t d;

    ask_for_itself(&record, number);
    d = asked[number] & record.keep & ~passed_on[number];
    ask_for_bits(file, &record, d);
    passed_on[number] |= d;
}

/* Up and down the file until nothing more is asked for. */
static void ask_all(const uint8_t *file, uint32_t count)
{
    uint32_t i;

    memset(passed_on, 0, 8 * (size_t)count);
    do {
        is_more = 0;
        for (i = count; i-- > 0;)
            ask_for_all(file, i);
        for (i = 0; i < count; i++)
            ask_for_all(file, i);
    } while (is_more);
}

void close_list(const uint8_t *file, uint64_t *list)
{
    uint32_t count = read_16(file + 6);

    memcpy(asked, list, 8 * (size_t)count);
    ask_all(file, count);
    memcpy(list, asked, 8 * (size_t)count);
}

uint32_t lowest_fault(const uint8_t *file, const uint64_t *list)
{
    uint32_t count = read_16(file + 6), i;

    memset(asked, 0, 8 * (size_t)count);
    for (i = 0; i < count; i++) {
        struct record record = read_record(file, i);

        ask_for_itself(&record, i);
        ask_for_bits(file, &record, list[i] & record.keep);
    }
    for (i = 0; i < count; i++) {
        unsigned width = width_at(file, i);

        if ((list[i] | asked[i]) != list[i]
            || (width < 64 && list[i] >> width != 0))
            break;
    }
    return i;
}

uint64_t tally_of(const uint8_t *file, const uint64_t *list)
{
    uint32_t count = read_16(file + 6), i;
    uint64_t tally = 0, mask;

    for (i = 0; i < count; i++) {
        tally += 0x100000000u * (uint64_t)width_at(file, i);
        for (mask = list[i]; mask != 0; mask &= mask - 1)
            tally++;
    }
    return tally;
}

const char *least_fault(const uint8_t *file, const uint64_t *list)
{
    static uint64_t least[COUNT_LIMIT];
    uint32_t count = read_16(file + 6), i;

    memset(least, 0, 8 * (size_t)count);
    close_list(file, least);
    for (i = 0; i < count; i++)
        if (list[i] != least[i])
            return "a mask is not what the care rules ask for";
    return NULL;
}

/* A mask that is not the least one, or a tally that is not the count. The
   list is passed as bytes and may begin anywhere. */
const char *judge_masks(const struct lent *before, const struct lent *after,
                        uint64_t answer)
{
    const uint8_t *file = before->of[0].bytes, *bytes = after->of[1].bytes;
    static uint64_t list[COUNT_LIMIT];
    uint32_t count = read_16(file + 6), i;
    const char *fault;

    for (i = 0; i < count; i++)
        list[i] = read_64(bytes + 8 * (size_t)i);
    fault = least_fault(file, list);
    if (fault == NULL && answer != tally_of(file, list))
        fault = "the tally does not count widths and ones";
    return fault;
}
