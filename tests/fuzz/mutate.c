/* Makes new inputs: changed and repaired designs, broken ones, and any bytes.
   Assumes that the same seed and bytes must give the same input. */

#include <string.h>

#include "../harness/damage.h"
#include "changes.h"
#include "control.h"
#include "fuzzer.h"
#include "records.h"
#include "repair.h"
#include "seen.h"

/* How many records a short design has at most, and how often a long one stays
   long. */
enum { SHORT = 40, LONG_ONE_IN = 16 };

/* An input taken apart. */
struct parts {
    struct netlist net;
    struct file file;
    uint8_t control[CONTROL_BYTES];
};

static struct parts parts, others;

/* As control_read reads them; the file is at the front. */
static void take_apart(struct parts *taken, const uint8_t *input, size_t size)
{
    size_t there = size < CONTROL_BYTES ? size : CONTROL_BYTES;

    memset(taken->control, 0, CONTROL_BYTES);
    memcpy(taken->control, input + size - there, there);
    taken->file.length = size - there;
    memcpy(taken->file.bytes, input, taken->file.length);
    netlist_read(&taken->net, input, taken->file.length);
}

/* A file that is too long is cut. */
static size_t put_together(uint8_t *input, size_t most)
{
    struct file *file = &parts.file;

    if (file->length > most - CONTROL_BYTES)
        file->length = most - CONTROL_BYTES;
    memcpy(input, file->bytes, file->length);
    memcpy(input + file->length, parts.control, CONTROL_BYTES);
    return file->length + CONTROL_BYTES;
}

/* The records that there is room for, repaired; so the file is accepted. */
static void write_repaired(size_t most)
{
    struct netlist *net = &parts.net;
    size_t room = HEADER_BYTES + CONTROL_BYTES;
    uint32_t limit = most < room ? 0
        : (uint32_t)((most - room) / RECORD_BYTES);

    if (limit > COUNT_LIMIT)
        limit = COUNT_LIMIT;
    if (net->count > limit)
        records_delete(net, limit, net->count - limit);
    netlist_repair(net);
    netlist_write(net, &parts.file);
}

/* Most mutations of a long design are of a few of its records, since a long
   one takes as much time as a hundred short ones. */
static void cut_down(struct rng *rng)
{
    struct netlist *net = &parts.net;
    uint32_t left = rng_between(rng, 1, SHORT);

    if (net->count <= SHORT || rng_once_in(rng, LONG_ONE_IN))
        return;
    records_delete(net, 0, rng_below(rng, net->count - left));
    records_delete(net, left, net->count - left);
}

/* One of the last bytes: any, or one bit of it. */
static void change_control(struct rng *rng)
{
    uint8_t *byte = &parts.control[rng_below(rng, CONTROL_BYTES)];

    if (rng_once_in(rng, 2))
        *byte ^= (uint8_t)(1u << rng_below(rng, 8));
    else
        *byte = (uint8_t)rng_word(rng);
}

/* Damage to the written bytes: header, length, or any place. */
static void break_bytes(struct rng *rng)
{
    struct file *file = &parts.file;

    if (file->length < HEADER_BYTES)
        netlist_write(&parts.net, file);
    switch (rng_below(rng, 4)) {
    case 0:
        damage_header(rng, file, rng_between(rng, 1, 5));
        break;
    case 1:
        damage_length(rng, file);
        break;
    case 2:
        damage_byte(rng, file);
        break;
    default:
        damage_bit(rng, file);
        break;
    }
}

/* libFuzzer's own mutations within one record. */
static void mutate_record(struct rng *rng)
{
    uint8_t *record;

    netlist_write(&parts.net, &parts.file);
    if (parts.net.count == 0)
        return;
    record = parts.file.bytes + HEADER_BYTES
           + RECORD_BYTES * (size_t)rng_below(rng, parts.net.count);
    LLVMFuzzerMutate(record, RECORD_BYTES, RECORD_BYTES);
    netlist_read(&parts.net, parts.file.bytes, parts.file.length);
}

static void change_repaired(struct rng *rng, size_t most)
{
    uint32_t changes = rng_between(rng, 1, 4);

    while (changes-- > 0)
        change_netlist(rng, &parts.net);
    write_repaired(most);
}

static void mutate_file(struct rng *rng, size_t most)
{
    switch (rng_below(rng, 16)) {
    case 0:
        break_bytes(rng);
        break;
    case 1:
    case 2:
        break_netlist(rng, &parts.net);
        netlist_write(&parts.net, &parts.file);
        break;
    case 3:
        mutate_record(rng);
        break;
    case 4:
        mutate_record(rng);
        write_repaired(most);
        break;
    case 5:
        change_control(rng);
        break;
    default:
        change_repaired(rng, most);
        break;
    }
}

size_t LLVMFuzzerCustomMutator(uint8_t *input, size_t size, size_t most,
                               unsigned seed)
{
    struct rng rng = rng_for(seed, size);

    seen_search();
    if (most < HEADER_BYTES + CONTROL_BYTES || size > INPUT_ROOM
        || rng_once_in(&rng, 64))
        return LLVMFuzzerMutate(input, size, most);
    take_apart(&parts, input, size);
    while (rng_once_in(&rng, 2))
        change_control(&rng);
    cut_down(&rng);
    mutate_file(&rng, most);
    return put_together(input, most);
}

size_t LLVMFuzzerCustomCrossOver(const uint8_t *one, size_t one_size,
                                 const uint8_t *two, size_t two_size,
                                 uint8_t *out, size_t most, unsigned seed)
{
    struct rng rng = rng_for(seed, one_size + two_size);

    seen_search();
    if (most < HEADER_BYTES + CONTROL_BYTES || one_size > INPUT_ROOM
        || two_size > INPUT_ROOM)
        return 0;
    take_apart(&parts, one, one_size);
    take_apart(&others, two, two_size);
    if (rng_once_in(&rng, 2))
        memcpy(parts.control, others.control, CONTROL_BYTES);
    if (rng_once_in(&rng, 2))
        join_netlists(&rng, &parts.net, &others.net);
    cut_down(&rng);
    mutate_file(&rng, most);
    return put_together(out, most);
}
