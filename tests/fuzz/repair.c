/* Puts kinds, widths, operands and unused fields right, record by record.
   Assumes that a wrong record should become a near one that is accepted. */

#include "repair.h"

enum { TRIES = 64 };

static int is_readable(const struct netlist *net, uint32_t number)
{
    return net->records[number].kind != KIND_OUTPUT;
}

/* A record below `limit` that is no output and has one of these widths: the
   one named if it will do, or one of those before it, and round again from
   the last. The limit if none is found in a few tries. */
static uint32_t near_record(const struct netlist *net, uint32_t named,
                            uint32_t limit, unsigned least, unsigned most)
{
    uint32_t tries = limit < TRIES ? limit : TRIES;
    uint32_t i;

    for (i = 0; i < tries; i++) {
        uint32_t number = (named % limit + limit - i) % limit;
        unsigned width = net->records[number].width;

        if (is_readable(net, number) && width >= least && width <= most)
            return number;
    }
    return limit;
}

/* A record of this width; `other`, which has it, if none is found. */
static uint32_t alike_record(const struct netlist *net, uint32_t named,
                             uint32_t limit, uint32_t other)
{
    unsigned width = net->records[other].width;
    uint32_t number = near_record(net, named, limit, width, width);

    return number < limit ? number : other;
}

/* A place far beyond the operand becomes its highest one. */
static void make_extract(const struct netlist *net, struct record *record)
{
    unsigned from = net->records[record->operand[0]].width;

    record->kind = KIND_EXTRACT;
    if (record->width > from)
        record->width = (uint8_t)from;
    if (record->k >= WIDTH_LIMIT)
        record->k = from - record->width;
    record->k %= from - record->width + 1u;
}

/* Places beyond the width become as many as there may be. */
static void fit_shift(const struct netlist *net, struct record *record)
{
    record->width = net->records[record->operand[0]].width;
    if (record->k >= WIDTH_LIMIT)
        record->k = record->width - 1u;
    record->k %= record->width;
}

/* A concat of records that are too wide becomes an extract. */
static void fit_concat(const struct netlist *net, struct record *record,
                       uint32_t limit)
{
    unsigned a = net->records[record->operand[0]].width;
    uint32_t b = limit;

    if (a < WIDTH_LIMIT)
        b = near_record(net, record->operand[1], limit, 1, WIDTH_LIMIT - a);
    if (b == limit) {
        make_extract(net, record);
        return;
    }
    record->operand[1] = b;
    record->width = (uint8_t)(a + net->records[b].width);
}

/* A mux without a selector of one bit becomes an exclusive or. */
static void fit_mux(const struct netlist *net, struct record *record,
                    uint32_t limit)
{
    uint32_t *operand = record->operand;
    uint32_t a = near_record(net, operand[0], limit, 1, 1);
    uint32_t b = near_record(net, operand[1], limit, 1, WIDTH_LIMIT);

    if (b == limit)
        b = operand[0];
    operand[1] = b;
    operand[2] = alike_record(net, operand[2], limit, b);
    record->width = net->records[b].width;
    if (a < limit) {
        operand[0] = a;
        return;
    }
    record->kind = KIND_XOR;
    operand[0] = operand[2];
}

/* Operands and width of a kind that reads earlier records. Without one that it
   may read it becomes an input. */
static void fit_reader(const struct netlist *net, struct record *record,
                       uint32_t number)
{
    unsigned most = record->kind == KIND_MUL ? MULTIPLIER_LIMIT : WIDTH_LIMIT;
    uint32_t *operand = record->operand;
    uint32_t a = number;

    if (number > 0)
        a = near_record(net, operand[0], number, 1, most);
    if (a == number) {
        record->kind = KIND_INPUT;
        return;
    }
    operand[0] = a;
    if (record->kind == KIND_MUX) {
        fit_mux(net, record, number);
    } else if (record->kind == KIND_EXTRACT) {
        make_extract(net, record);
    } else if (record->kind == KIND_CONCAT) {
        fit_concat(net, record, number);
    } else if (kind_shifts(record->kind)) {
        fit_shift(net, record);
    } else {
        if (record->kind != KIND_OUTPUT)
            operand[1] = alike_record(net, operand[1], number, a);
        record->width = kind_compares(record->kind)
            ? 1 : net->records[a].width;
    }
}

/* Unused fields, and bits beyond the width. */
static void clear_rest(struct record *record)
{
    uint64_t full = width_mask(record->width);
    unsigned i;

    for (i = kind_operands(record->kind); i < 3; i++)
        record->operand[i] = 0;
    if (!kind_uses(record->kind, 'k'))
        record->k = 0;
    if (record->kind == KIND_CONSTANT || record->kind == KIND_REGISTER)
        record->k &= full;
    record->keep &= full;
}

static void repair_record(struct netlist *net, uint32_t number)
{
    struct record *record = &net->records[number];

    record->kind %= KIND_COUNT;
    if (record->width == 0 || record->width > WIDTH_LIMIT)
        record->width = (uint8_t)(record->width % WIDTH_LIMIT + 1);
    if (record->kind > KIND_REGISTER)
        fit_reader(net, record, number);
    clear_rest(record);
}

/* A register may name any record, so all widths have to be there first. It
   reads itself if no other will do. */
void netlist_repair(struct netlist *net)
{
    uint32_t i;

    for (i = 0; i < net->count; i++)
        repair_record(net, i);
    for (i = 0; i < net->count; i++) {
        struct record *record = &net->records[i];

        if (record->kind == KIND_REGISTER)
            record->operand[0] = alike_record(net, record->operand[0],
                                              net->count, i);
    }
}
