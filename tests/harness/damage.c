/* Damage to the records of a design and to the bytes of its file, in families.
   Assumes a valid netlist at first, with a record where one is damaged. */

#include "families.h"

#include <string.h>

#include "designs.h"

/* The fields of a record: its three operands, and then these. */
enum { KIND = 3, WIDTH, K, KEEP, FIELDS };

enum { TRIES = 64 };

/* One of many records drawn, of a kind from `least` to `most` and at least of
   this width if any is. */
static uint32_t find(struct rng *rng, const struct netlist *net, uint8_t least,
                     uint8_t most, uint8_t width)
{
    uint32_t number = rng_below(rng, net->count);
    int tries;

    for (tries = 0; tries < TRIES && (net->records[number].kind < least
                                      || net->records[number].kind > most
                                      || net->records[number].width < width);
         tries++)
        number = rng_below(rng, net->count);
    return number;
}

/* An operand number near the limits, or that of an output, or one bit. */
static uint32_t edge_operand(struct rng *rng, const struct netlist *net,
                             uint32_t number)
{
    uint32_t edges[] = { number, number + 1, number - (number > 0),
                         net->count - 1, net->count, 65535, 0, 0, 0, 0 };

    edges[6] = rng_below(rng, 65536);
    edges[7] = rng_below(rng, net->count);
    edges[8] = find(rng, net, KIND_OUTPUT, KIND_OUTPUT, 0);
    edges[9] = 1u << rng_below(rng, 16);
    return edges[rng_below(rng, sizeof edges / sizeof *edges)];
}

static uint8_t bad_width(struct rng *rng, uint8_t width)
{
    uint8_t widths[] = { 0, WIDTH_LIMIT + 1, width | 128, 0 };

    widths[3] = (uint8_t)rng_between(rng, WIDTH_LIMIT + 1, 255);
    return widths[rng_below(rng, sizeof widths)];
}

/* A word next to a power of two, where cut or wrapped sums go wrong, or within
   the width but for one bit. */
static uint64_t edge_word(struct rng *rng, unsigned width)
{
    uint64_t power = (uint64_t)1 << rng_below(rng, 64);
    uint64_t full = width_mask(width);
    uint64_t edges[] = { 0, power, power, ~(uint64_t)0, full, full + 1,
                         power | 1 };

    edges[0] = rng_below(rng, 70);
    edges[1] -= rng_below(rng, 3);
    edges[2] += rng_below(rng, 70);
    edges[3] -= rng_below(rng, 130);
    return edges[rng_below(rng, sizeof edges / sizeof *edges)];
}

static void set_field(struct rng *rng, struct netlist *net, uint32_t number,
                      unsigned field)
{
    struct record *record = &net->records[number];

    if (field < KIND)
        record->operand[field] = edge_operand(rng, net, number);
    else if (field == KIND)
        record->kind = rng_once_in(rng, 3)
            ? KIND_COUNT : (uint8_t)rng_between(rng, KIND_COUNT, 255);
    else if (field == WIDTH)
        record->width = bad_width(rng, record->width);
    else if (field == K)
        record->k = edge_word(rng, record->width);
    else
        record->keep = edge_word(rng, record->width);
}

/* More places than a shift at this width may have, by one or by many. */
static uint64_t bad_places(struct rng *rng, unsigned width)
{
    uint64_t places[] = { width, width + 1, WIDTH_LIMIT, (uint64_t)1 << 63,
                          ~(uint64_t)0, 0 };

    places[5] = rng_between(rng, width, 255);
    return places[rng_below(rng, sizeof places / sizeof *places)];
}

/* Another width, another operand, or for an extract or a shift another
   place. */
static void break_width_rule(struct rng *rng, struct record *record,
                             uint32_t number)
{
    uint32_t place = rng_below(rng, kind_operands(record->kind));

    if (record->kind == KIND_EXTRACT && rng_once_in(rng, 3))
        record->k += rng_between(rng, 1, WIDTH_LIMIT);
    else if (kind_shifts(record->kind) && rng_once_in(rng, 3))
        record->k = bad_places(rng, record->width);
    else if (number > 0 && rng_once_in(rng, 3))
        record->operand[place] = rng_below(rng, number);
    else if (rng_once_in(rng, 2))
        record->width = (uint8_t)(record->width % WIDTH_LIMIT + 1);
    else
        record->width = (uint8_t)rng_between(rng, 1, WIDTH_LIMIT);
}

/* 8 and 9 are broken in a record that reads others, 10 in an operand that is
   not used, in k or in the keep word, and 15 in a record that mostly has the
   width of its operands. */
void damage_record(struct rng *rng, struct netlist *net, unsigned refusal)
{
    uint32_t reader = find(rng, net, KIND_REGISTER, KIND_COUNT - 1, 0);
    unsigned read = kind_operands(net->records[reader].kind);
    uint32_t wide = find(rng, net, KIND_AND, KIND_SUB, MULTIPLIER_LIMIT + 1);
    uint32_t any = rng_below(rng, net->count);
    unsigned unread = rng_between(rng, kind_operands(net->records[any].kind),
                                  KIND + 1);

    if (refusal == 6 || refusal == 7)
        set_field(rng, net, any, refusal == 6 ? KIND : WIDTH);
    else if (refusal == 8)
        set_field(rng, net, reader, rng_below(rng, read));
    else if (refusal == 9)
        break_width_rule(rng, &net->records[reader], reader);
    else if (refusal == 15)
        net->records[wide].kind = KIND_MUL;
    else
        set_field(rng, net, any, unread < KIND ? unread : unread + K - KIND);
}

void damage_rule(struct rng *rng, struct netlist *net)
{
    static const uint8_t refusals[] = { 6, 7, 8, 9, 10, 15 };

    damage_record(rng, net, refusals[rng_below(rng, sizeof refusals)]);
}

void damage_edge(struct rng *rng, struct netlist *net)
{
    uint32_t number = rng_below(rng, net->count);
    unsigned field = rng_below(rng, FIELDS + 1);

    if (field < FIELDS)
        set_field(rng, net, number, field);
    else
        net->records[number].width = (uint8_t)rng_below(rng, WIDTH_LIMIT + 3);
}

void damage_kind(struct rng *rng, struct netlist *net)
{
    net->records[rng_below(rng, net->count)].kind
        = (uint8_t)rng_below(rng, KIND_COUNT);
}

void damage_order(struct rng *rng, struct netlist *net)
{
    struct record *one = &net->records[rng_below(rng, net->count)];
    struct record *two = &net->records[rng_below(rng, net->count)];
    struct record old = *one;

    *one = *two;
    if (rng_once_in(rng, 2))
        *two = old;
}

void damage_far_k(struct rng *rng, struct netlist *net)
{
    int is_shift = rng_once_in(rng, 2);
    uint32_t number = is_shift
        ? find(rng, net, KIND_LEFT_SHIFT, KIND_ARITHMETIC_SHIFT, 0)
        : find(rng, net, KIND_EXTRACT, KIND_EXTRACT, 0);
    struct record *record = &net->records[number];

    if (is_shift && rng_once_in(rng, 2))
        record->k = bad_places(rng, record->width);
    else if (rng_once_in(rng, 2))
        record->k = 0 - (uint64_t)record->width + rng_below(rng, 3) - 1;
    else
        record->k = ~(uint64_t)0 - rng_below(rng, 130);
}

/* The width stays, so the records that read the register still fit. */
void damage_ahead(struct rng *rng, struct netlist *net)
{
    uint32_t number = rng_below(rng, net->count - 1);
    struct record *record = &net->records[number];
    uint32_t later;
    int tries = 0;

    do
        later = rng_between(rng, number + 1, net->count - 1);
    while (net->records[later].width != record->width && ++tries < TRIES);
    record->kind = KIND_REGISTER;
    record->operand[0] = later;
    record->operand[1] = 0;
    record->operand[2] = 0;
    record->k = design_word(rng, record->width);
    if (rng_once_in(rng, 4))
        damage_record(rng, net, 10);
    else if (rng_once_in(rng, 3))
        net->records[later].kind = KIND_OUTPUT;
    else
        set_field(rng, net, later, rng_between(rng, KIND, WIDTH));
}

/* The number of bytes that a file with this count in its header has. */
static size_t length_for(uint32_t count)
{
    return HEADER_BYTES + RECORD_BYTES * (size_t)count;
}

static void resize(struct rng *rng, struct file *file, size_t length)
{
    int zeros = rng_once_in(rng, 2);

    while (file->length < length)
        file->bytes[file->length++] = zeros ? 0 : (uint8_t)rng_word(rng);
    file->length = length;
}

/* Often with the length that fits the count, so that only 4 is broken. */
static void break_count(struct rng *rng, struct file *file)
{
    static const uint32_t beyond[4] = { 1, 1, 300, 65535 - COUNT_LIMIT };
    uint32_t most = beyond[rng_below(rng, 4)];
    uint32_t count = COUNT_LIMIT + rng_between(rng, 1, most);

    write_16(file->bytes + 6, count);
    if (count < 3000 || rng_once_in(rng, 8))
        resize(rng, file, length_for(count));
}

void damage_length(struct rng *rng, struct file *file)
{
    static const size_t steps[8] = { 1, 2, 8, 16, 23, 24, 25, 48 };
    size_t step = steps[rng_below(rng, 8)];

    if (rng_once_in(rng, 4))
        step = rng_between(rng, 1, 3000);
    if (rng_once_in(rng, 3))
        resize(rng, file, file->length + step);
    else if (step < file->length)
        file->length -= step;
    else
        file->length = rng_below(rng, (uint32_t)file->length);
}

/* The count in the header is moved, or the bytes behind it are. */
static void break_length(struct rng *rng, struct file *file)
{
    size_t old = file->length;
    uint32_t count = (uint32_t)((old - HEADER_BYTES) / RECORD_BYTES);

    if (rng_once_in(rng, 4))
        write_16(file->bytes + 6, rng_below(rng, COUNT_LIMIT + 1));
    else if (rng_once_in(rng, 3))
        write_16(file->bytes + 6, count == 0 ? 1 : count - 1);
    else
        damage_length(rng, file);
    if (file->length < HEADER_BYTES)
        file->length = old + 1;
}

void damage_header(struct rng *rng, struct file *file, unsigned refusal)
{
    static const uint8_t places[4] = { 0, 1, 2, 5 };
    static const uint16_t versions[6] = { 0, 2, 3, 256, 257, 65535 };
    uint32_t any = rng_below(rng, 65536);

    if (refusal == 1)
        file->length = rng_below(rng, HEADER_BYTES);
    else if (refusal == 2)
        file->bytes[places[any % 4]] ^= (uint8_t)rng_between(rng, 1, 255);
    else if (refusal == 3)
        write_16(file->bytes + 3,
                 rng_once_in(rng, 2) ? any : versions[any % 6]);
    else if (refusal == 4)
        break_count(rng, file);
    else
        break_length(rng, file);
}

void damage_byte(struct rng *rng, struct file *file)
{
    uint32_t place = rng_below(rng, (uint32_t)file->length);

    file->bytes[place] ^= (uint8_t)rng_between(rng, 1, 255);
}

void damage_bit(struct rng *rng, struct file *file)
{
    uint32_t place = rng_below(rng, (uint32_t)file->length);

    file->bytes[place] ^= (uint8_t)(1u << rng_below(rng, 8));
}

/* Small bytes look like kinds, widths and operands now and then. */
void damage_all(struct rng *rng, struct file *file)
{
    uint32_t count = rng_below(rng, 9);
    int small = rng_once_in(rng, 2);
    size_t i;

    file->length = length_for(count);
    if (rng_once_in(rng, 8))
        file->length = rng_below(rng, 200);
    rng_fill(rng, file->bytes, file->length);
    for (i = 0; small && i < file->length; i++)
        file->bytes[i] = rng_once_in(rng, 2) ? 0 : file->bytes[i] % 4;
    if (file->length < HEADER_BYTES || rng_once_in(rng, 8))
        return;
    memcpy(file->bytes, "PCN\1\0\0", 6);
    write_16(file->bytes + 6, count);
}

/* Two to five breaks; in a design of few records several of them meet in one
   record. */
static void several_breaks(struct rng *rng, struct netlist *broken)
{
    uint32_t breaks = rng_between(rng, 2, 5);

    if (rng_once_in(rng, 2))
        design_make(rng, broken, rng_between(rng, 2, 4));
    while (breaks-- > 0)
        damage_rule(rng, broken);
}

static void sometimes_header(struct rng *rng, struct file *file)
{
    if (!rng_once_in(rng, 8))
        return;
    damage_header(rng, file, rng_between(rng, 2, 5));
    damage_header(rng, file, rng_between(rng, 2, 5));
}

static void several_edges(struct rng *rng, struct netlist *changed)
{
    uint32_t changes = rng_between(rng, 1, 3);

    while (changes-- > 0)
        damage_edge(rng, changed);
}

const struct family families[FAMILIES] = {
    { 1, NULL, NULL, 1000 }, { 2, NULL, NULL, 1000 }, { 3, NULL, NULL, 1000 },
    { 4, NULL, NULL, 1000 }, { 5, NULL, NULL, 1000 }, { 6, NULL, NULL, 1000 },
    { 7, NULL, NULL, 1000 }, { 8, NULL, NULL, 2000 }, { 9, NULL, NULL, 2000 },
    { 10, NULL, NULL, 2000 }, { 15, NULL, NULL, 2000 },
    { 0, several_breaks, sometimes_header, 4000 },
    { 0, several_edges, NULL, 4000 }, { 0, damage_kind, NULL, 2000 },
    { 0, damage_order, NULL, 1000 }, { 0, damage_far_k, NULL, 1500 },
    { 0, damage_ahead, NULL, 3000 }, { 0, NULL, damage_length, 1500 },
    { 0, NULL, damage_byte, 3000 }, { 0, NULL, damage_bit, 3000 },
    { 0, NULL, damage_all, 1500 }
};

const struct family *family_of(unsigned long number)
{
    unsigned i;

    for (i = 0; number >= families[i].files; i = (i + 1) % FAMILIES)
        number -= families[i].files;
    return &families[i];
}

void family_design(const struct family *family, struct rng *rng,
                   struct netlist *net, struct file *file)
{
    int in_records = family->records != NULL || family->aim >= 6;

    design_make(rng, net, design_count(rng, in_records ? 2 : 0));
    if (family->aim >= 6)
        damage_record(rng, net, family->aim);
    if (family->records != NULL)
        family->records(rng, net);
    netlist_write(net, file);
    if (family->aim >= 1 && family->aim <= 5)
        damage_header(rng, file, family->aim);
    if (family->bytes != NULL)
        family->bytes(rng, file);
}

void family_make(const struct family *family, struct rng *rng,
                 struct file *file)
{
    static struct netlist net;

    family_design(family, rng, &net, file);
}
