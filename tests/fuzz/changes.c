/* Changes fields of records; copies, inserts and deletes records.
   Assumes that what breaks a rule is either wanted or repaired. */

#include "changes.h"

#include "../harness/damage.h"
#include "../harness/designs.h"
#include "../harness/styles.h"
#include "records.h"
#include "repair.h"

enum { BLOCK = 8, NEW_COUNT = 24, DOUBLED = 64 };

typedef void change(struct rng *rng, struct netlist *net);

static struct record *any_record(struct rng *rng, struct netlist *net)
{
    return &net->records[rng_below(rng, net->count)];
}

static int is_width(unsigned width)
{
    return width > 0 && width <= WIDTH_LIMIT;
}

/* The width of some record, if it may be one at all, or any other. */
static uint8_t draw_width(struct rng *rng, struct netlist *net)
{
    uint8_t width = net->count == 0 ? 0 : any_record(rng, net)->width;

    if (rng_once_in(rng, 2) || !is_width(width))
        return (uint8_t)rng_between(rng, 1, WIDTH_LIMIT);
    return width;
}

/* A record with any fields; what does not fit is left to the repair. */
static void insert_record(struct rng *rng, struct netlist *net)
{
    uint32_t at = rng_below(rng, net->count + 1);
    uint8_t width = draw_width(rng, net);
    struct record record;
    unsigned i;

    record.kind = (uint8_t)rng_below(rng, KIND_COUNT);
    record.width = width;
    for (i = 0; i < 3; i++)
        record.operand[i] = rng_below(rng, at + 1);
    record.k = design_word(rng, width);
    record.keep = rng_once_in(rng, 4) ? design_word(rng, width)
                                      : width_mask(width);
    records_insert(net, at, &record, 1, at);
}

/* A copy of a few records in a row, in another place. */
static void copy_block(struct rng *rng, struct netlist *net)
{
    uint32_t from = rng_below(rng, net->count);
    uint32_t count = rng_between(rng, 1, BLOCK);

    if (count > net->count - from)
        count = net->count - from;
    records_insert(net, rng_below(rng, net->count + 1), &net->records[from],
                   count, from);
}

/* The whole design once more behind itself, unless it is long already. */
static void double_design(struct rng *rng, struct netlist *net)
{
    if (net->count <= DOUBLED || rng_once_in(rng, DOUBLED))
        records_insert(net, net->count, net->records, net->count, 0);
}

static void delete_record(struct rng *rng, struct netlist *net)
{
    records_delete(net, rng_below(rng, net->count), 1);
}

static void delete_block(struct rng *rng, struct netlist *net)
{
    uint32_t from = rng_below(rng, net->count);
    uint32_t count = rng_between(rng, 1, net->count - from);

    records_delete(net, from, count);
}

/* A lower record as an operand; any record for a register. */
static void move_operand(struct rng *rng, struct netlist *net)
{
    uint32_t number = rng_below(rng, net->count);
    struct record *record = &net->records[number];
    uint32_t limit = record->kind == KIND_REGISTER ? net->count : number;
    unsigned operands = kind_operands(record->kind);

    if (operands > 0 && limit > 0)
        record->operand[rng_below(rng, operands)] = rng_below(rng, limit);
}

/* Records that read this one get other widths with the repair. */
static void change_width(struct rng *rng, struct netlist *net)
{
    struct record *record = any_record(rng, net);

    record->width = draw_width(rng, net);
    record->keep = width_mask(record->width);
}

static void change_keep(struct rng *rng, struct netlist *net)
{
    struct record *record = any_record(rng, net);

    if (!is_width(record->width))
        return;
    if (rng_once_in(rng, 3))
        record->keep ^= (uint64_t)1 << rng_below(rng, record->width);
    else if (rng_once_in(rng, 2))
        record->keep = width_mask(record->width);
    else
        record->keep = design_word(rng, record->width);
}

static void change_k(struct rng *rng, struct netlist *net)
{
    struct record *record = any_record(rng, net);

    if (record->kind == KIND_EXTRACT || kind_shifts(record->kind))
        record->k = rng_below(rng, WIDTH_LIMIT);
    else if (is_width(record->width))
        record->k = design_word(rng, record->width);
}

/* Another output at the end, so that more is cared for. */
static void add_output(struct rng *rng, struct netlist *net)
{
    struct record record = *any_record(rng, net);

    record.kind = KIND_OUTPUT;
    record.operand[0] = rng_below(rng, net->count);
    record.keep = ~(uint64_t)0;
    records_insert(net, net->count, &record, 1, net->count);
}

/* A register of its old width that reads any record: feedback, if that record
   is a later one. */
static void make_register(struct rng *rng, struct netlist *net)
{
    struct record *record = any_record(rng, net);

    record->kind = KIND_REGISTER;
    record->operand[0] = rng_below(rng, net->count);
}

/* What an and or an or reads becomes a constant: the next one from any place
   on. */
static void make_constant(struct rng *rng, struct netlist *net)
{
    uint32_t from = rng_below(rng, net->count), i;

    for (i = 0; i < net->count; i++) {
        const struct record *record
            = &net->records[(from + i) % net->count];
        uint32_t number = record->operand[rng_below(rng, 2)];

        if (!kind_cuts(record->kind) || number >= net->count)
            continue;
        net->records[number].kind = KIND_CONSTANT;
        net->records[number].k = rng_word(rng);
        return;
    }
}

static void new_design(struct rng *rng, struct netlist *net)
{
    design_styled(rng, net, rng_between(rng, 1, NEW_COUNT),
                  &styles[rng_below(rng, STYLES)]);
}

static change *const changes[] = {
    insert_record, insert_record, copy_block, copy_block, double_design,
    delete_record, delete_record, delete_block, move_operand, move_operand,
    move_operand, change_width, change_keep, change_keep, change_k, add_output,
    make_register, make_constant, damage_kind, damage_kind, damage_edge,
    damage_edge, damage_order, damage_far_k, new_design
};

static uint32_t draw(struct rng *rng, size_t size)
{
    return rng_below(rng, (uint32_t)(size / sizeof(change *)));
}

void change_netlist(struct rng *rng, struct netlist *net)
{
    if (net->count == 0)
        insert_record(rng, net);
    else
        changes[draw(rng, sizeof changes)](rng, net);
}

/* A record becomes the square of the next wide signal below it. Its c, k and
   keep word stay, so they may be wrong for a multiplier as well. */
static void make_wide_square(struct rng *rng, struct netlist *net)
{
    uint32_t number = rng_below(rng, net->count), a;
    struct record *record = &net->records[number];

    for (a = number; a-- > 0;) {
        if (net->records[a].width <= MULTIPLIER_LIMIT
            || net->records[a].kind == KIND_OUTPUT)
            continue;
        record->kind = KIND_MUL;
        record->width = net->records[a].width;
        record->operand[0] = record->operand[1] = a;
        return;
    }
}

static change *const breaks[] = {
    damage_rule, damage_rule, damage_rule, damage_rule, damage_edge,
    damage_kind, damage_order, damage_far_k, make_wide_square
};

/* A register that reads a broken record ahead comes first, since that takes a
   netlist with nothing wrong in it. */
void break_netlist(struct rng *rng, struct netlist *net)
{
    uint32_t more = rng_between(rng, 1, 3);

    if (net->count == 0)
        return;
    netlist_repair(net);
    if (net->count > 1 && rng_once_in(rng, 8)) {
        damage_ahead(rng, net);
        more--;
    }
    while (more-- > 0)
        breaks[draw(rng, sizeof breaks)](rng, net);
}

void join_netlists(struct rng *rng, struct netlist *net,
                   const struct netlist *other)
{
    uint32_t from, count;

    if (other->count == 0)
        return;
    from = rng_below(rng, other->count);
    count = rng_between(rng, 1, BLOCK);
    if (rng_once_in(rng, 8)) {
        from = 0;
        count = other->count;
    }
    if (count > other->count - from)
        count = other->count - from;
    records_insert(net, rng_below(rng, net->count + 1),
                   &other->records[from], count, from);
}
