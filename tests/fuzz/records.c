/* Reads netlists from bytes and moves blocks of records.
   Assumes numbers within the count; a register may name any record. */

#include "records.h"

#include <string.h>

void netlist_read(struct netlist *net, const uint8_t *bytes, size_t length)
{
    size_t count = length < HEADER_BYTES
        ? 0 : (length - HEADER_BYTES) / RECORD_BYTES;
    uint32_t i;

    netlist_clear(net);
    net->count = count > NETLIST_ROOM ? NETLIST_ROOM : (uint32_t)count;
    net->header_count = (uint16_t)net->count;
    for (i = 0; i < net->count; i++)
        net->records[i] = read_record(bytes, i);
}

static void set_count(struct netlist *net, uint32_t count)
{
    net->count = count;
    net->header_count = (uint16_t)count;
}

/* Operands from `from` on are moved, those that the kind uses alone: others
   are 0, and stay so. */
static void renumber(struct netlist *net, uint32_t from, int32_t by)
{
    uint32_t i;
    unsigned j;

    for (i = 0; i < net->count; i++)
        for (j = 0; j < kind_operands(net->records[i].kind); j++)
            if (net->records[i].operand[j] >= from)
                net->records[i].operand[j] += (uint32_t)by;
}

static void make_room(struct netlist *net, uint32_t at, uint32_t count)
{
    renumber(net, at, (int32_t)count);
    memmove(&net->records[at + count], &net->records[at],
            (net->count - at) * sizeof net->records[0]);
    set_count(net, net->count + count);
}

void records_delete(struct netlist *net, uint32_t at, uint32_t count)
{
    memmove(&net->records[at], &net->records[at + count],
            (net->count - at - count) * sizeof net->records[0]);
    set_count(net, net->count - count);
    renumber(net, at + count, -(int32_t)count);
}

void records_insert(struct netlist *net, uint32_t at,
                    const struct record *block, uint32_t count,
                    uint32_t block_at)
{
    static struct record copied[NETLIST_ROOM];
    uint32_t room = net->count < COUNT_LIMIT ? COUNT_LIMIT - net->count : 0;
    uint32_t i;
    unsigned j;

    if (count > room)
        count = room;
    memcpy(copied, block, count * sizeof copied[0]);
    make_room(net, at, count);
    for (i = 0; i < count; i++) {
        for (j = 0; j < kind_operands(copied[i].kind); j++)
            copied[i].operand[j] += at - block_at;
        net->records[at + i] = copied[i];
    }
}
