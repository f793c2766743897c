/* The plain model's care masks, worked out with a list of waiting records.
   Assumes a mask list of its own memory, apart from the file. */

#include "care.h"
#include "model.h"
#include "record.h"

/* The masks so far, and the records whose mask has grown since they last
   asked their operands. A record waits at most once at a time. */
struct work {
    uint64_t mask[COUNT_LIMIT];
    uint8_t waits[COUNT_LIMIT];
    uint32_t list[COUNT_LIMIT];
    uint32_t waiting;
};

static void let_wait(struct work *work, uint32_t number)
{
    if (work->waits[number])
        return;
    work->waits[number] = 1;
    work->list[work->waiting++] = number;
}

/* Some reader asks for these bits of the signal. */
static void ask(struct work *work, uint32_t number, uint64_t bits)
{
    uint64_t grown = work->mask[number] | bits;

    if (grown == work->mask[number])
        return;
    work->mask[number] = grown;
    let_wait(work, number);
}

static void ask_both(struct work *work, const uint32_t *operand,
                     uint64_t bits)
{
    ask(work, operand[0], bits);
    ask(work, operand[1], bits);
}

/* The low bits go to b and the rest to a, which has a bit at least: there are
   fewer than 64 low ones. */
static void ask_parts(struct work *work, const uint32_t *operand,
                      unsigned low, uint64_t bits)
{
    ask(work, operand[1], bits & width_mask(low));
    ask(work, operand[0], bits >> low);
}

/* Every bit from 0 to the highest one: each bit is spread downwards. */
static uint64_t filled_below(uint64_t bits)
{
    unsigned step;

    for (step = 1; step < 64; step *= 2)
        bits |= bits >> step;
    return bits;
}

/* What a shift asks of a. The arithmetic shift has a's top bit in every place
   from w - k up. */
static uint64_t asked_by_shift(const struct record *record, uint64_t d)
{
    uint64_t full = width_mask(record->width), k = record->k;
    uint64_t top = (uint64_t)1 << (record->width - 1);
    uint64_t copies = full & ~(full >> k);

    if (record->kind == KIND_LEFT_SHIFT)
        return d >> k;
    if (record->kind == KIND_ARITHMETIC_SHIFT && (d & copies) != 0)
        return ((d << k) & full) | top;
    return (d << k) & full;
}

/* The care rule of and and or. Where exactly one operand is a constant, v
   being its value, the other has D and v, or D without v. The constant itself
   has D. */
static void ask_masked(struct work *work, const uint8_t *file,
                       const struct record *record, uint64_t d)
{
    const uint32_t *operand = record->operand;
    int a_is_constant = kind_at(file, operand[0]) == KIND_CONSTANT;
    int b_is_constant = kind_at(file, operand[1]) == KIND_CONSTANT;
    struct record constant = read_record(file, operand[b_is_constant]);
    uint64_t v = constant.k & constant.keep;

    if (a_is_constant == b_is_constant) {
        ask_both(work, operand, d);
        return;
    }
    ask(work, operand[b_is_constant], d);
    ask(work, operand[a_is_constant],
        record->kind == KIND_AND ? d & v : d & ~v);
}

/* The care rules of the kinds that ask a and b for the same. */
static void ask_alike(struct work *work, const uint8_t *file,
                      const struct record *record, uint64_t d)
{
    const uint32_t *operand = record->operand;

    switch (record->kind) {
    case KIND_XOR:
        ask_both(work, operand, d);
        break;
    case KIND_ADD:
    case KIND_SUB:
    case KIND_MUL:
        ask_both(work, operand, filled_below(d));
        break;
    default:
        if (d != 0)
            ask_both(work, operand, width_mask(width_at(file, operand[0])));
        break;
    }
}

/* The care rules: what a record asks of its operands, given its D. */
static void ask_operands(struct work *work, const uint8_t *file,
                         const struct record *record, uint64_t d)
{
    const uint32_t *operand = record->operand;

    switch (record->kind) {
    case KIND_INPUT:
    case KIND_CONSTANT:
        break;
    case KIND_REGISTER:
    case KIND_OUTPUT:
        ask(work, operand[0], d);
        break;
    case KIND_EXTRACT:
        ask(work, operand[0], d << record->k);
        break;
    case KIND_CONCAT:
        ask_parts(work, operand, width_at(file, operand[1]), d);
        break;
    case KIND_AND:
    case KIND_OR:
        ask_masked(work, file, record, d);
        break;
    case KIND_MUX:
        ask(work, operand[0], d != 0);
        ask(work, operand[1], d);
        ask(work, operand[2], d);
        break;
    case KIND_LEFT_SHIFT:
    case KIND_RIGHT_SHIFT:
    case KIND_ARITHMETIC_SHIFT:
        ask(work, operand[0], asked_by_shift(record, d));
        break;
    default:
        ask_alike(work, file, record, d);
        break;
    }
}

/* An output has all its bits. No other record has a bit yet, and where D is 0
   nothing is asked for, so outputs alone wait at first. */
static void begin(struct work *work, const uint8_t *file, uint32_t count)
{
    uint32_t i;

    work->waiting = 0;
    for (i = 0; i < count; i++) {
        work->mask[i] = 0;
        work->waits[i] = 0;
        if (kind_at(file, i) == KIND_OUTPUT)
            ask(work, i, width_mask(width_at(file, i)));
    }
}

static void work_off(struct work *work, const uint8_t *file)
{
    while (work->waiting > 0) {
        uint32_t number = work->list[--work->waiting];
        struct record record = read_record(file, number);

        work->waits[number] = 0;
        ask_operands(work, file, &record, work->mask[number] & record.keep);
    }
}

/* Each record asks once, with its D in the list. The masks in `work` take what
   is asked, and nobody asks again with these. */
void model_called_for(const uint8_t *file, uint32_t count,
                      const uint64_t *masks, uint64_t *called)
{
    struct work work;
    uint32_t i;

    begin(&work, file, count);
    for (i = 0; i < count; i++) {
        struct record record = read_record(file, i);

        ask_operands(&work, file, &record, masks[i] & record.keep);
    }
    for (i = 0; i < count; i++)
        called[i] = work.mask[i];
}

static uint32_t ones(uint64_t bits)
{
    uint32_t count = 0;

    for (; bits != 0; bits &= bits - 1)
        count++;
    return count;
}

uint64_t model_tally(const uint8_t *file, uint32_t count,
                     const uint64_t *masks)
{
    uint64_t widths = 0, cared = 0;
    uint32_t i;

    for (i = 0; i < count; i++) {
        widths += width_at(file, i);
        cared += ones(masks[i]);
    }
    return (widths << 32) + cared;
}

uint64_t model_masks(const uint8_t *file, size_t length, uint8_t *masks,
                     size_t masks_length)
{
    uint64_t answer = model_check(file, length);
    struct work work;
    uint32_t count, i;

    if (answer >> 63)
        return answer;
    count = (uint32_t)answer;
    if (masks_length != 8 * (size_t)count)
        return model_refused(11, 0);
    begin(&work, file, count);
    work_off(&work, file);
    for (i = 0; i < count; i++)
        write_64(masks + 8 * (size_t)i, work.mask[i]);
    return model_tally(file, count, work.mask);
}
