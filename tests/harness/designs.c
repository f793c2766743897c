/* Makes random valid netlists: each record picks operands that already fit.
   Assumes one design at a time, since the lists by width are static. */

#include "styles.h"

#include <string.h>

/* The records that may be read so far, by their width and, under ANY, all
   together, and how many of the last of them are chosen from. */
enum { ANY = 0 };

static struct {
    uint32_t recent;
    uint32_t count[WIDTH_LIMIT + 1];
    uint32_t list[WIDTH_LIMIT + 1][COUNT_LIMIT];
} readable;

/* The widths that a design draws from. Few widths give records that share
   operands; all 64 give every width. */
struct widths {
    uint32_t count;
    uint8_t list[WIDTH_LIMIT];
};

const struct style styles[STYLES + 1] = {
    /* input, constant, register, output, extract, concat, and, or, xor, mux,
       add, sub, mul, equal, below, left shift, right shift, arithmetic right
       shift, signed below; opening, closing, recent, keep, cut */
    { { 2, 1, 6, 1, 2, 2, 1, 1, 1, 2, 1, 1, 1, 1, 1, 1, 1, 1, 1 }, 0, 0, 0,
      KEEP_MOSTLY, 0 },
    { { 1, 1, 0, 0, 3, 3, 2, 2, 2, 3, 2, 2, 1, 1, 1, 1, 1, 1, 1 }, 12, 8, 128,
      KEEP_MOSTLY, 0 },
    { { 1, 0, 4, 0, 5, 5, 0, 0, 0, 0, 0, 0, 0, 0, 0, 1, 1, 2, 0 }, 4, 1, 0,
      KEEP_ANY, 0 },
    { { 1, 1, 3, 1, 3, 1, 0, 0, 1, 0, 4, 4, 4, 0, 0, 1, 1, 1, 0 }, 2, 1, 0,
      KEEP_HOLES, 0 },
    { { 1, 1, 2, 1, 2, 3, 0, 0, 1, 6, 1, 0, 0, 2, 2, 0, 0, 1, 2 }, 4, 1, 0,
      KEEP_ANY, 0 },
    { { 1, 1, 1, 0, 2, 2, 2, 2, 2, 2, 2, 2, 2, 1, 1, 1, 1, 1, 1 }, 1, 1, 4,
      KEEP_MOSTLY, 0 },
    { { 4, 5, 1, 2, 1, 1, 6, 6, 1, 1, 1, 0, 0, 1, 0, 1, 1, 0, 0 }, 2, 10, 12,
      KEEP_MOSTLY, 1 },
    { { 1, 1, 3, 0, 2, 2, 1, 1, 1, 4, 1, 1, 1, 1, 1, 1, 1, 1, 1 }, 0, 1, 0,
      KEEP_ANY, 0 },
    { { 1, 1, 1, 1, 1, 1, 1, 1, 1, 1, 1, 1, 1, 1, 1, 1, 1, 1, 1 }, 0, 0, 0,
      KEEP_ANY, 0 }
};

uint32_t design_count(struct rng *rng, uint32_t least)
{
    uint32_t drawn = rng_below(rng, 8);

    if (drawn < 4)
        return rng_between(rng, least, 12);
    if (drawn < 6)
        return rng_between(rng, 13, 100);
    if (drawn < 7)
        return rng_between(rng, 101, 600);
    if (rng_once_in(rng, 8))
        return COUNT_LIMIT;
    return rng_between(rng, 601, COUNT_LIMIT);
}

uint64_t design_word(struct rng *rng, unsigned width)
{
    switch (rng_below(rng, 6)) {
    case 0:
        return 0;
    case 1:
        return width_mask(width);
    case 2:
        return (uint64_t)1 << (width - 1);
    case 3:
        return (uint64_t)1 << rng_below(rng, width);
    default:
        return rng_word(rng) & width_mask(width);
    }
}

static struct widths pick_widths(struct rng *rng, int few)
{
    int all = rng_once_in(rng, 2) && !few;
    struct widths widths;
    uint32_t i;

    widths.count = all ? WIDTH_LIMIT : rng_between(rng, 1, 4);
    for (i = 0; i < widths.count; i++)
        widths.list[i] = (uint8_t)(all ? i + 1
                                       : rng_between(rng, 1, WIDTH_LIMIT));
    return widths;
}

/* One of the records of this width, or of the last few. */
static uint32_t readable_of(struct rng *rng, unsigned width)
{
    uint32_t count = readable.count[width], from = readable.recent;

    if (from == 0 || from > count)
        from = count;
    return readable.list[width][count - 1 - rng_below(rng, from)];
}

static void add_readable(uint32_t number, unsigned width)
{
    readable.list[width][readable.count[width]++] = number;
}

static void make_extract(struct rng *rng, struct netlist *net)
{
    uint32_t a = readable_of(rng, ANY);
    unsigned from = net->records[a].width;
    unsigned width = rng_between(rng, 1, from);
    unsigned k = rng_between(rng, 0, from - width);

    if (rng_once_in(rng, 4))
        k = from - width;
    netlist_add(net, KIND_EXTRACT, (uint8_t)width, a, 0, 0, k);
}

/* By any places that the width allows; no place and all but one more often
   than others. */
static void make_shift(struct rng *rng, struct netlist *net, uint8_t kind)
{
    uint32_t a = readable_of(rng, ANY);
    uint8_t width = net->records[a].width;
    uint32_t k = rng_below(rng, width);

    if (rng_once_in(rng, 4))
        k = rng_once_in(rng, 2) ? 0 : width - 1u;
    netlist_add(net, kind, width, a, 0, 0, k);
}

/* How often a kind that reads narrow records only looks for them. */
enum { TRIES = 4 };

/* False when no two narrow records are found in a few tries. */
static int make_concat(struct rng *rng, struct netlist *net)
{
    int tries;

    for (tries = 0; tries < TRIES; tries++) {
        uint32_t a = readable_of(rng, ANY);
        uint32_t b = readable_of(rng, ANY);
        unsigned width = net->records[a].width + net->records[b].width;

        if (width <= WIDTH_LIMIT) {
            netlist_add(net, KIND_CONCAT, (uint8_t)width, a, b, 0, 0);
            return 1;
        }
    }
    return 0;
}

static int make_mux(struct rng *rng, struct netlist *net)
{
    uint32_t a, b, c;
    uint8_t width;

    if (readable.count[1] == 0)
        return 0;
    a = readable_of(rng, 1);
    b = readable_of(rng, ANY);
    width = net->records[b].width;
    c = readable_of(rng, width);
    netlist_add(net, KIND_MUX, width, a, b, c, 0);
    return 1;
}

/* False when a multiplier finds no narrow record in a few tries. */
static int make_pair(struct rng *rng, struct netlist *net, uint8_t kind)
{
    unsigned most = kind == KIND_MUL ? MULTIPLIER_LIMIT : WIDTH_LIMIT;
    int tries;

    for (tries = 0; tries < TRIES; tries++) {
        uint32_t a = readable_of(rng, ANY);
        uint8_t width = net->records[a].width;

        if (width <= most) {
            netlist_add(net, kind, kind_compares(kind) ? 1 : width, a,
                        readable_of(rng, width), 0, 0);
            return 1;
        }
    }
    return 0;
}

/* Adds a record of this kind that reads earlier ones; false if it cannot. */
static int make_reader(struct rng *rng, struct netlist *net, uint8_t kind)
{
    uint32_t a;

    if (readable.count[ANY] == 0)
        return 0;
    switch (kind) {
    case KIND_OUTPUT:
        a = readable_of(rng, ANY);
        netlist_add(net, kind, net->records[a].width, a, 0, 0, 0);
        return 1;
    case KIND_EXTRACT:
        make_extract(rng, net);
        return 1;
    case KIND_CONCAT:
        return make_concat(rng, net);
    case KIND_MUX:
        return make_mux(rng, net);
    case KIND_LEFT_SHIFT:
    case KIND_RIGHT_SHIFT:
    case KIND_ARITHMETIC_SHIFT:
        make_shift(rng, net, kind);
        return 1;
    default:
        return make_pair(rng, net, kind);
    }
}

static uint8_t draw_kind(struct rng *rng, const struct style *style)
{
    uint32_t all = 0, drawn;
    uint8_t kind;

    for (kind = 0; kind < KIND_COUNT; kind++)
        all += style->share[kind];
    drawn = rng_below(rng, all);
    for (kind = 0; drawn >= style->share[kind]; kind++)
        drawn -= style->share[kind];
    return kind;
}

/* The kind of the next record: the ends of the design may be fixed. */
static uint8_t next_kind(struct rng *rng, const struct style *style,
                         uint32_t number, uint32_t count)
{
    if (number < count * style->opening / 64)
        return KIND_INPUT;
    if (count - number <= (count * style->closing + 63) / 64)
        return KIND_OUTPUT;
    return draw_kind(rng, style);
}

static uint64_t draw_keep(struct rng *rng, enum keep_style keep,
                          unsigned width)
{
    uint64_t full = width_mask(width);

    switch (keep) {
    case KEEP_MIXED:
        return design_word(rng, width);
    case KEEP_MOSTLY:
        return rng_once_in(rng, 4) ? design_word(rng, width) : full;
    case KEEP_HOLES:
        return full & ~((uint64_t)1 << rng_below(rng, 64))
                    & ~((uint64_t)1 << rng_below(rng, width));
    default:
        return full;
    }
}

/* Inputs, constants and registers need no record before them. The operand of a
   register is chosen once all records are there. */
static void make_record(struct rng *rng, struct netlist *net, uint8_t kind,
                        const struct style *style,
                        const struct widths *widths)
{
    struct record *record = &net->records[net->count];
    uint32_t number = net->count;
    uint8_t width = widths->list[rng_below(rng, widths->count)];

    if (kind > KIND_REGISTER && !make_reader(rng, net, kind)) {
        /* A source of a kind that the style has; any may have inputs. */
        kind = (uint8_t)rng_below(rng, 3);
        kind = style->share[kind] == 0 ? KIND_INPUT : kind;
    }
    if (kind <= KIND_REGISTER)
        netlist_add(net, kind, width, 0, 0, 0,
                    kind == KIND_INPUT ? 0 : design_word(rng, width));
    if (record->kind == KIND_OUTPUT)
        return;
    add_readable(number, ANY);
    add_readable(number, record->width);
}

/* A register reads itself, an earlier or a later record of its width. */
static void connect_registers(struct rng *rng, struct netlist *net)
{
    uint32_t i;

    for (i = 0; i < net->count; i++) {
        struct record *record = &net->records[i];

        if (record->kind != KIND_REGISTER)
            continue;
        if (rng_once_in(rng, 8))
            record->operand[0] = i;
        else
            record->operand[0] = readable_of(rng, record->width);
    }
}

/* Three in four ands and ors read the last constant of their width before
   them, if there is one, as a or as b. With few widths there mostly is. */
static void connect_constants(struct rng *rng, struct netlist *net)
{
    uint32_t behind[WIDTH_LIMIT + 1] = { 0 };
    uint32_t i;

    for (i = 0; i < net->count; i++) {
        struct record *record = &net->records[i];

        if (record->kind == KIND_CONSTANT)
            behind[record->width] = i + 1;
        if (kind_cuts(record->kind) && behind[record->width] > 0
            && !rng_once_in(rng, 4))
            record->operand[rng_below(rng, 2)] = behind[record->width] - 1;
    }
}

static void draw_keeps(struct rng *rng, struct netlist *net,
                       enum keep_style keep)
{
    uint32_t i;

    if (keep == KEEP_ANY)
        keep = (enum keep_style)rng_below(rng, KEEP_ANY);
    for (i = 0; i < net->count; i++)
        net->records[i].keep = draw_keep(rng, keep, net->records[i].width);
}

void design_styled(struct rng *rng, struct netlist *net, uint32_t count,
                   const struct style *style)
{
    struct widths widths = pick_widths(rng, style->cut);

    readable.recent = style->recent;
    memset(readable.count, 0, sizeof readable.count);
    netlist_clear(net);
    while (net->count < count) {
        uint8_t kind = next_kind(rng, style, net->count, count);

        make_record(rng, net, kind, style, &widths);
    }
    readable.recent = 0;
    connect_registers(rng, net);
    if (style->cut)
        connect_constants(rng, net);
    draw_keeps(rng, net, style->keep);
}

void design_make(struct rng *rng, struct netlist *net, uint32_t count)
{
    design_styled(rng, net, count, &styles[STYLES]);
}

void design_by_turn(struct rng *rng, struct netlist *net, uint32_t count,
                    unsigned long i)
{
    design_styled(rng, net, count, &styles[i % (STYLES + 1)]);
}
