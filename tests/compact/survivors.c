/* Finds the survivors by whole passes, until one finds no more.
   Assumes that the passes may be slow; the model has a waiting list. */

#include "survivors.h"

#include "../harness/netlist.h"

static uint8_t survives[COUNT_LIMIT];

static int is_kept_by_kind(const uint8_t *file, uint32_t number)
{
    return kind_at(file, number) == KIND_INPUT
        || kind_at(file, number) == KIND_OUTPUT;
}

int is_emptied(const uint8_t *file, const uint64_t *masks, uint32_t number)
{
    return !is_kept_by_kind(file, number) && masks[number] == 0;
}

/* Lets survive what this record names; true if something did not before. */
static int name_operands(const uint8_t *file, uint32_t number)
{
    struct record record = read_record(file, number);
    int is_more = 0;
    unsigned i;

    for (i = 0; i < kind_operands(record.kind); i++) {
        is_more |= !survives[record.operand[i]];
        survives[record.operand[i]] = 1;
    }
    return is_more;
}

/* Inputs and outputs, and what is named by survivors that are not emptied,
   over and over until nothing more survives. No other record does. */
uint32_t find_survivors(const uint8_t *file, const uint64_t *masks,
                        uint32_t *numbers)
{
    uint32_t count = read_16(file + 6), many = 0, i;
    int is_more;

    for (i = 0; i < count; i++)
        survives[i] = (uint8_t)is_kept_by_kind(file, i);
    do {
        is_more = 0;
        for (i = 0; i < count; i++)
            if (survives[i] && !is_emptied(file, masks, i))
                is_more |= name_operands(file, i);
    } while (is_more);
    for (i = 0; i < count; i++)
        if (survives[i])
            numbers[many++] = i;
    return many;
}
