/* The plain model's compaction, its survivors found with a waiting list.
   Assumes that the file, the list and the destination do not overlap. */

#include "fields.h"
#include "model.h"
#include "record.h"
#include "survivors.h"

static int is_input_or_output(const uint8_t *file, uint32_t number)
{
    uint8_t kind = kind_at(file, number);

    return kind == KIND_INPUT || kind == KIND_OUTPUT;
}

/* Whether the record, if it survives, becomes a constant that is 0. */
static int becomes_constant(const uint8_t *file, const uint64_t *masks,
                            uint32_t number)
{
    return masks[number] == 0 && !is_input_or_output(file, number);
}

static void let_survive(struct survivors *survivors, uint32_t number)
{
    if (survivors->survives[number])
        return;
    survivors->survives[number] = 1;
    survivors->list[survivors->waiting++] = number;
}

static void let_operands_survive(struct survivors *survivors,
                                 const uint8_t *file, uint32_t number)
{
    struct record record = read_record(file, number);
    unsigned used = fields_used(record.kind);
    int i;

    for (i = 0; i < 3; i++)
        if (used & (unsigned)USES_A << i)
            let_survive(survivors, record.operand[i]);
}

/* Inputs and outputs first, and then whatever is named by a survivor that
   does not become a constant. */
static void find_survivors(struct survivors *survivors, const uint8_t *file,
                           uint32_t count, const uint64_t *masks)
{
    uint32_t i;

    survivors->waiting = 0;
    for (i = 0; i < count; i++)
        survivors->survives[i] = 0;
    for (i = 0; i < count; i++)
        if (is_input_or_output(file, i))
            let_survive(survivors, i);
    while (survivors->waiting > 0) {
        uint32_t number = survivors->list[--survivors->waiting];

        if (!becomes_constant(file, masks, number))
            let_operands_survive(survivors, file, number);
    }
}

/* Order is kept, so the new number is how many survivors come before. */
static void renew_numbers(struct survivors *survivors, uint32_t count)
{
    uint32_t i;

    survivors->count = 0;
    for (i = 0; i < count; i++) {
        survivors->renewed[i] = survivors->count;
        survivors->count += survivors->survives[i];
    }
}

void model_survivors(const uint8_t *file, size_t length, uint64_t *masks,
                     struct survivors *survivors)
{
    uint32_t count = read_16(file + 6), i;
    uint8_t bytes[8 * COUNT_LIMIT];

    model_masks(file, length, bytes, 8 * (size_t)count);
    for (i = 0; i < count; i++)
        masks[i] = read_64(bytes + 8 * (size_t)i);
    find_survivors(survivors, file, count, masks);
    renew_numbers(survivors, count);
}

/* What a survivor is in the new file. */
static struct record compacted(const struct survivors *survivors,
                               const uint8_t *file, const uint64_t *masks,
                               uint32_t number)
{
    struct record record = read_record(file, number);
    struct record constant = { KIND_CONSTANT, record.width, { 0, 0, 0 }, 0, 0 };
    unsigned used = fields_used(record.kind);
    int i;

    if (becomes_constant(file, masks, number))
        return constant;
    for (i = 0; i < 3; i++)
        if (used & (unsigned)USES_A << i)
            record.operand[i] = survivors->renewed[record.operand[i]];
    record.keep &= masks[number];
    return record;
}

/* The new length; nothing is written beyond it. */
static size_t write_compacted(const struct survivors *survivors,
                              const uint8_t *file, const uint64_t *masks,
                              uint8_t *destination)
{
    uint32_t count = read_16(file + 6), i;
    uint8_t *at = destination + HEADER_BYTES;

    for (i = 0; i < 6; i++)
        destination[i] = file[i];
    write_16(destination + 6, survivors->count);
    for (i = 0; i < count; i++) {
        struct record record;

        if (!survivors->survives[i])
            continue;
        record = compacted(survivors, file, masks, i);
        write_record(at, &record);
        at += RECORD_BYTES;
    }
    return (size_t)(at - destination);
}

uint64_t model_compact(const uint8_t *file, size_t length, uint64_t *masks,
                       size_t masks_words, uint8_t *destination,
                       size_t destination_length)
{
    uint64_t answer = model_check(file, length);
    uint32_t count = (uint32_t)answer;
    struct survivors survivors;

    if (answer >> 63)
        return answer;
    if (masks_words != count)
        return model_refused(11, 0);
    if (destination_length != length)
        return model_refused(13, 0);
    model_survivors(file, length, masks, &survivors);
    return write_compacted(&survivors, file, masks, destination);
}
