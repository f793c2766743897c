/* Builds netlists in memory and writes them as files of version 1.
   Assumes the callers stay within NETLIST_ROOM records. */

#include "netlist.h"

#include <assert.h>
#include <string.h>

/* The letters of the table in 01. */
static const char *const kind_fields[KIND_COUNT] = {
    "", "k", "ak", "a", "ak", "ab", "ab", "ab", "ab", "abc", "ab", "ab", "ab",
    "ab", "ab", "ak", "ak", "ak", "ab"
};

int kind_uses(uint8_t kind, char field)
{
    return kind < KIND_COUNT && strchr(kind_fields[kind], field) != NULL;
}

unsigned kind_operands(uint8_t kind)
{
    return (unsigned)(kind_uses(kind, 'a') + kind_uses(kind, 'b')
                      + kind_uses(kind, 'c'));
}

int kind_shifts(uint8_t kind)
{
    return kind >= KIND_LEFT_SHIFT && kind <= KIND_ARITHMETIC_SHIFT;
}

int kind_compares(uint8_t kind)
{
    return kind == KIND_EQUAL || kind == KIND_BELOW
        || kind == KIND_SIGNED_BELOW;
}

int kind_cuts(uint8_t kind)
{
    return kind == KIND_AND || kind == KIND_OR;
}

void netlist_clear(struct netlist *net)
{
    memcpy(net->mark, "PCN", 3);
    net->version = 1;
    net->byte_5 = 0;
    net->header_count = 0;
    net->count = 0;
}

uint32_t netlist_add(struct netlist *net, uint8_t kind, uint8_t width,
                     uint32_t a, uint32_t b, uint32_t c, uint64_t k)
{
    struct record *record = &net->records[net->count];

    assert(net->count < NETLIST_ROOM);
    record->kind = kind;
    record->width = width;
    record->operand[0] = a;
    record->operand[1] = b;
    record->operand[2] = c;
    record->k = k;
    record->keep = width_mask(width);
    net->header_count++;
    return net->count++;
}

uint32_t netlist_input(struct netlist *net, uint8_t width)
{
    return netlist_add(net, KIND_INPUT, width, 0, 0, 0, 0);
}

uint32_t netlist_output(struct netlist *net, uint32_t a, uint64_t keep)
{
    uint8_t width = net->records[a].width;
    uint32_t number = netlist_add(net, KIND_OUTPUT, width, a, 0, 0, 0);

    net->records[number].keep = keep;
    return number;
}

int netlist_constant(const struct netlist *net, uint32_t number)
{
    const struct record *record = &net->records[number];
    int a = net->records[record->operand[0]].kind == KIND_CONSTANT;
    int b = net->records[record->operand[1]].kind == KIND_CONSTANT;

    return kind_cuts(record->kind) && a != b ? b : -1;
}

uint64_t netlist_settled(const struct netlist *net, uint32_t number)
{
    const struct record *record = &net->records[number];
    int place = netlist_constant(net, number);
    const struct record *constant;
    uint64_t value;

    if (place < 0)
        return 0;
    constant = &net->records[record->operand[place]];
    value = constant->k & constant->keep;
    return record->kind == KIND_OR ? value
                                   : ~value & width_mask(record->width);
}

void netlist_write(const struct netlist *net, struct file *file)
{
    uint32_t i;

    memcpy(file->bytes, net->mark, 3);
    write_16(file->bytes + 3, net->version);
    file->bytes[5] = net->byte_5;
    write_16(file->bytes + 6, net->header_count);
    for (i = 0; i < net->count; i++)
        write_record(file->bytes + 8 + 24 * (size_t)i, &net->records[i]);
    file->length = 8 + 24 * (size_t)net->count;
}
