/* The plain model's check of a netlist file, refusals 1 to 10 and 15.
   Assumes that `file` points to `length` readable bytes. */

#include "fields.h"
#include "model.h"
#include "record.h"

/* Refusals 1 to 5, or 0. */
static unsigned header_refusal(const uint8_t *file, size_t length)
{
    uint32_t count;

    if (length < HEADER_BYTES)
        return 1;
    if (file[0] != 'P' || file[1] != 'C' || file[2] != 'N' || file[5] != 0)
        return 2;
    if (read_16(file + 3) != 1)
        return 3;
    count = read_16(file + 6);
    if (count > COUNT_LIMIT)
        return 4;
    if (length != HEADER_BYTES + (size_t)RECORD_BYTES * count)
        return 5;
    return 0;
}

/* A register may look ahead, so the record it names may be unchecked still;
   its kind byte is taken as it stands. */
static int operands_fit(const uint8_t *file, const struct record *record,
                        uint32_t number, uint32_t count, unsigned used)
{
    uint32_t limit = record->kind == KIND_REGISTER ? count : number;
    int i;

    for (i = 0; i < 3; i++) {
        if (!(used & (unsigned)USES_A << i))
            continue;
        if (record->operand[i] >= limit)
            return 0;
        if (kind_at(file, record->operand[i]) == KIND_OUTPUT)
            return 0;
    }
    return 1;
}

/* Called once the used operands are known to name records of the file. */
static int widths_fit(const uint8_t *file, const struct record *record)
{
    const uint32_t *operand = record->operand;
    unsigned w = record->width, a, b;

    switch (record->kind) {
    case KIND_INPUT:
    case KIND_CONSTANT:
        return 1;
    case KIND_REGISTER:
    case KIND_OUTPUT:
        return width_at(file, operand[0]) == w;
    case KIND_EXTRACT:
        /* Subtracting from a's width avoids a sum that could wrap. */
        a = width_at(file, operand[0]);
        return w <= a && record->k <= a - w;
    case KIND_CONCAT:
        a = width_at(file, operand[0]);
        b = width_at(file, operand[1]);
        return a + b == w;
    case KIND_MUX:
        return width_at(file, operand[0]) == 1
            && width_at(file, operand[1]) == w
            && width_at(file, operand[2]) == w;
    case KIND_LEFT_SHIFT:
    case KIND_RIGHT_SHIFT:
    case KIND_ARITHMETIC_SHIFT:
        return width_at(file, operand[0]) == w && record->k < w;
    case KIND_EQUAL:
    case KIND_BELOW:
    case KIND_SIGNED_BELOW:
        a = width_at(file, operand[0]);
        b = width_at(file, operand[1]);
        return a == b && w == 1;
    default:
        a = width_at(file, operand[0]);
        b = width_at(file, operand[1]);
        return a == w && b == w;
    }
}

static int bits_fit(const struct record *record, unsigned used)
{
    uint64_t beyond = ~width_mask(record->width);
    int i;

    for (i = 0; i < 3; i++)
        if (!(used & (unsigned)USES_A << i) && record->operand[i] != 0)
            return 0;
    if (!(used & USES_K) && record->k != 0)
        return 0;
    if (record->keep & beyond)
        return 0;
    if (record->kind == KIND_CONSTANT || record->kind == KIND_REGISTER)
        return (record->k & beyond) == 0;
    return 1;
}

/* Refusals 6 to 10 and 15, which goes before 10, for one record, or 0. */
static unsigned record_refusal(const uint8_t *file, uint32_t number,
                               uint32_t count)
{
    struct record record = read_record(file, number);
    unsigned used;

    if (record.kind >= KIND_COUNT)
        return 6;
    if (record.width == 0 || record.width > WIDTH_LIMIT)
        return 7;
    used = fields_used(record.kind);
    if (!operands_fit(file, &record, number, count, used))
        return 8;
    if (!widths_fit(file, &record))
        return 9;
    if (record.kind == KIND_MUL && record.width > MULTIPLIER_LIMIT)
        return 15;
    if (!bits_fit(&record, used))
        return 10;
    return 0;
}

uint64_t model_check(const uint8_t *file, size_t length)
{
    unsigned refusal = header_refusal(file, length);
    uint32_t count, i;

    if (refusal != 0)
        return model_refused(refusal, 0);
    count = read_16(file + 6);
    for (i = 0; i < count; i++) {
        refusal = record_refusal(file, i, count);
        if (refusal != 0)
            return model_refused(refusal, i);
    }
    return count;
}
