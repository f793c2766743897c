/* Every design of and and or at width 3, put together from those of width 1.
   Assumes that these kinds work bit by bit: each bit is a design of its own. */

#include <stdio.h>
#include <string.h>

#include "../../include/pcn.h"
#include "../harness/netlist.h"
#include "../harness/report.h"
#include "parts.h"
#include "smallest.h"

enum { WIDTH = 3, MOST_WORDS = 7, COLUMNS = 1 << MOST_WORDS };

/* A design has sources, which are inputs and constants, then ands and ors, and
   then an output of the last record, all of one width. Its words are the k of
   each constant, and the keep words of constants, ands and ors. A column is
   one bit of all words, a number in which the first word has the lowest bit;
   so three columns are all words of a design of width 3. */
static struct netlist net;
static uint64_t *words[MOST_WORDS];
static uint8_t *places[MOST_WORDS];
static unsigned many;
static struct file file;
static unsigned long tried;

static void note_word(uint32_t number, uint64_t *word, unsigned place)
{
    words[many] = word;
    places[many++] = file.bytes + 8 + 24 * (size_t)number + place;
}

static void note_words(void)
{
    uint32_t i;

    many = 0;
    for (i = 0; i + 1 < net.count; i++) {
        struct record *record = &net.records[i];

        if (record->kind == KIND_CONSTANT)
            note_word(i, &record->k, 8);
        if (record->kind != KIND_INPUT)
            note_word(i, &record->keep, 16);
    }
}

static void make_width(unsigned width)
{
    uint32_t i;

    for (i = 0; i < net.count; i++) {
        net.records[i].width = (uint8_t)width;
        net.records[i].keep = width_mask(width);
    }
}

/* The smallest family of each column, as a design of width 1. */
static void find_columns(uint8_t *smallest)
{
    unsigned column, i;

    make_width(1);
    for (column = 0; column < 1u << many; column++) {
        for (i = 0; i < many; i++)
            *words[i] = column >> i & 1;
        smallest[column] = (uint8_t)smallest_family(&net);
    }
}

/* Bit i of three numbers, the first one lowest. */
static unsigned bits_at(unsigned i, const unsigned *of)
{
    return (of[0] >> i & 1) + 2 * (of[1] >> i & 1) + 4 * (of[2] >> i & 1);
}

/* The design of three columns, beside the families of these. */
static void try_columns(const unsigned *columns, const uint8_t *smallest)
{
    unsigned families[WIDTH], i;
    uint8_t list[8 * MOST_RECORDS];
    int same = 1;

    for (i = 0; i < WIDTH; i++)
        families[i] = smallest[columns[i]];
    for (i = 0; i < many; i++)
        *places[i] = (uint8_t)bits_at(i, columns);
    if (pcn_masks(file.bytes, file.length, list, 8 * (size_t)net.count) >> 63)
        same = 0;
    for (i = 0; i < net.count; i++)
        same &= read_64(list + 8 * i) == bits_at(i, families);
    if (!same && test_fail())
        printf("      columns %u, %u and %u of a design with %u records\n",
               columns[0], columns[1], columns[2], (unsigned)net.count);
    tried++;
}

static void try_shape(void)
{
    uint8_t smallest[COLUMNS];
    unsigned columns[WIDTH], all;

    note_words();
    find_columns(smallest);
    make_width(WIDTH);
    netlist_write(&net, &file);
    all = 1u << many;
    for (columns[0] = 0; columns[0] < all; columns[0]++)
        for (columns[1] = 0; columns[1] < all; columns[1]++)
            for (columns[2] = 0; columns[2] < all; columns[2]++)
                try_columns(columns, smallest);
}

static void try_shapes(uint32_t sources, uint32_t readable);

/* One kind and its operands for the next record, then every choice for the
   records behind it. */
static void try_record(uint8_t kind, uint32_t a, uint32_t b, uint32_t sources,
                       uint32_t readable)
{
    netlist_add(&net, kind, 1, a, b, 0, 0);
    try_shapes(sources, readable);
    net.header_count = (uint16_t)--net.count;
}

static void try_shapes(uint32_t sources, uint32_t readable)
{
    uint32_t number = net.count, a, b;

    if (number < sources) {
        try_record(KIND_INPUT, 0, 0, sources, readable);
        try_record(KIND_CONSTANT, 0, 0, sources, readable);
    } else if (number < readable) {
        for (a = 0; a < number; a++)
            for (b = 0; b < number; b++) {
                try_record(KIND_AND, a, b, sources, readable);
                try_record(KIND_OR, a, b, sources, readable);
            }
    } else if (number == readable) {
        try_record(KIND_OUTPUT, number - 1, 0, sources, readable);
    } else {
        try_shape();
    }
}

void masks_columns(void)
{
    uint32_t count, sources;

    tried = 0;
    test_begin("all families: width 3, 3 to 5 records, every word, by bits");
    for (count = 3; count <= MOST_RECORDS; count++)
        for (sources = 1; sources + 2 <= count; sources++) {
            netlist_clear(&net);
            try_shapes(sources, count - 1);
        }
    printf("      %lu designs\n", tried);
    test_end();
}
