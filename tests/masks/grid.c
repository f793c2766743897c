/* Bits of every kind, width and place, and bits that go round by registers.
   Assumes that the judges of masks and trim know the least masks. */

#include "../harness/known.h"
#include "../harness/operations.h"
#include "../harness/report.h"
#include "../harness/trial.h"
#include "parts.h"

enum { CHAIN = 2000 };

static struct netlist net;

static uint64_t one_bit(unsigned bit)
{
    return (uint64_t)1 << bit;
}

/* The record keeps these bits and an output asks for those; an output itself
   is asked by nobody. */
static void try_bits(const struct operation *operation, uint64_t kept,
                     uint64_t asked)
{
    struct record *record = &net.records[READER];
    uint64_t full = width_mask(record->width);
    uint32_t count = net.count;

    record->keep = kept & full;
    if (record->kind != KIND_OUTPUT)
        netlist_output(&net, READER, asked & full);
    demand_answer(known_call(operation, &net).answer >> 63, 0);
    net.count = count;
    net.header_count = (uint16_t)count;
}

/* Every single bit asked for, every single bit kept, and words of several
   bits against each other. */
static void try_width(const struct operation *operation, uint8_t kind,
                      unsigned width)
{
    static const uint64_t words[] = {
        0, 0xffffffffffffffffu, 0x5555555555555555u, 0x8000000180000101u,
        0x0ff0f00ff00f0ff0u
    };
    enum { MANY = sizeof words / sizeof *words };
    unsigned i;

    reader_suited(&net, kind, width);
    for (i = 0; i < width; i++) {
        try_bits(operation, words[1], one_bit(i));
        try_bits(operation, one_bit(i), words[1]);
    }
    for (i = 0; i < MANY * MANY; i++)
        try_bits(operation, words[i / MANY], words[i % MANY]);
}

/* Every D of one bit and of two at this width: the record keeps all of what is
   asked for, then it is asked for more than it keeps. */
static void every_demand(uint8_t kind, unsigned width)
{
    uint64_t full = width_mask(width);
    unsigned i, j;

    reader_suited(&net, kind, width);
    for (i = 0; i < width; i++)
        for (j = 0; j <= i; j++) {
            uint64_t d = one_bit(i) | one_bit(j);

            try_bits(&masks_operation, full, d);
            try_bits(&masks_operation, d, full);
        }
}

/* Sums, differences and products, whose lower bits carry into their higher
   ones, at every width. */
static void every_carry(void)
{
    static const uint8_t kinds[] = { KIND_ADD, KIND_SUB, KIND_MUL };
    unsigned i, width;

    for (i = 0; i < sizeof kinds; i++)
        for (width = least_width(kinds[i]); width <= most_width(kinds[i]);
             width++)
            every_demand(kinds[i], width);
}

/* Every bit kept, or not, beside every bit asked for, or not. */
static void every_pair(void)
{
    unsigned i, j;

    reader_suited(&net, KIND_INPUT, 64);
    for (i = 0; i < 64; i++)
        for (j = 0; j < 64; j++) {
            try_bits(&trim_operation, one_bit(i), one_bit(j));
            try_bits(&trim_operation, ~one_bit(i), ~one_bit(j));
        }
}

/* A record of this kind that reads inputs of the other widths: all its bits
   are asked for, then the low ones, then the one above and the top one. */
static void try_reader(uint8_t kind, unsigned w, unsigned a, unsigned b,
                       uint64_t k, unsigned low)
{
    unsigned widths[] = { w, a, b, 1 };

    reader_make(&net, kind, widths, k);
    try_bits(&masks_operation, width_mask(w), width_mask(w));
    try_bits(&masks_operation, width_mask(w), width_mask(low));
    try_bits(&masks_operation, width_mask(w),
             one_bit(low % w) | one_bit(w - 1));
}

/* All shifts of this width. The low bits, of which `try_reader` asks for the
   next one too, are those that a shift fills or that it does not. */
static void every_shift(unsigned width)
{
    unsigned k;

    for (k = 0; k < width; k++) {
        try_reader(KIND_LEFT_SHIFT, width, width, 1, k, k);
        try_reader(KIND_RIGHT_SHIFT, width, width, 1, k, width - k);
        try_reader(KIND_ARITHMETIC_SHIFT, width, width, 1, k, width - k);
    }
}

/* Extracts of all widths at all places, concats of all two widths, shifts and
   comparisons of all widths. */
static void every_place(void)
{
    unsigned a, b;
    uint64_t k;

    for (a = 1; a <= 64; a++) {
        for (b = 1; b <= a; b++)
            for (k = 0; k + b <= a; k++)
                try_reader(KIND_EXTRACT, b, a, 1, k, b / 2);
        for (b = 1; a + b <= 64; b++)
            try_reader(KIND_CONCAT, a + b, a, b, 0, b);
        try_reader(KIND_EQUAL, 1, a, a, 0, 0);
        try_reader(KIND_BELOW, 1, a, a, 0, 0);
        try_reader(KIND_SIGNED_BELOW, 1, a, a, 0, 0);
        every_shift(a);
    }
}

void masks_grid(void)
{
    unsigned kind, width;

    test_begin("care rule: bits of every kind and width, asked for and kept");
    for (kind = 0; kind < KIND_COUNT; kind++)
        for (width = least_width((uint8_t)kind);
             width <= most_width((uint8_t)kind); width++) {
            try_width(&masks_operation, (uint8_t)kind, width);
            try_width(&trim_operation, (uint8_t)kind, width);
        }
    every_pair();
    test_end();
    test_begin("care rule: extract, concat, shifts and comparisons at every"
               " place");
    every_place();
    test_end();
    test_begin("care rule: add, sub and mul with every D of one bit and of"
               " two");
    every_carry();
    test_end();
}

static void add_register(unsigned width, uint32_t a)
{
    netlist_add(&net, KIND_REGISTER, (uint8_t)width, a, 0, 0, 0);
}

/* A ring of registers, each of which reads the next one, and the last one the
   word of the first, moved down by `step` places and round. Of the register in
   the middle bit 0 is asked for. */
static void try_ring(uint32_t registers, unsigned width, unsigned step,
                     uint64_t kept)
{
    uint32_t low = registers;

    netlist_clear(&net);
    while (net.count + 1 < registers)
        add_register(width, net.count + 1);
    add_register(width, low + 2);
    net.records[0].keep = kept;
    netlist_add(&net, KIND_EXTRACT, (uint8_t)step, 0, 0, 0, 0);
    netlist_add(&net, KIND_EXTRACT, (uint8_t)(width - step), 0, 0, 0, step);
    netlist_add(&net, KIND_CONCAT, (uint8_t)width, low, low + 1, 0, 0);
    netlist_output(&net, registers / 2, 1);
    demand_answer(known_call(&masks_operation, &net).answer >> 63, 0);
}

static void rings(void)
{
    unsigned width, i;

    test_begin("rings of every width and step, and with each bit not kept");
    for (width = 2; width <= 64; width++) {
        uint64_t full = width_mask(width);

        for (i = 1; i < width; i++)
            try_ring(1, width, i, full);
        for (i = 0; i < width; i++)
            try_ring(1, width, 1, full & ~((uint64_t)1 << i));
    }
    test_end();
    test_begin("rings of 300 registers that move 16 bits, of 2,044 with 64");
    try_ring(300, 16, 1, 0xffff);
    try_ring(2044, 64, 1, width_mask(64));
    test_end();
}

/* Registers in a row between an input and an output, each of which reads the
   next one or the one before: where it is the next one, each sweep back moves
   on by one register. If `losing`, a bit is lost now and then. */
static void chain(const char *name, unsigned width, int ahead, int losing)
{
    uint32_t i;

    test_begin(name);
    netlist_clear(&net);
    for (i = 0; i <= CHAIN; i++) {
        if (i == (ahead ? CHAIN : 0))
            netlist_input(&net, (uint8_t)width);
        else
            add_register(width, ahead ? i + 1 : i - 1);
        if (losing)
            net.records[i].keep &= ~((uint64_t)1 << i / 32);
    }
    netlist_output(&net, ahead ? 0 : CHAIN, width_mask(width));
    demand_answer(known_call(&masks_operation, &net).answer >> 63, 0);
    demand_answer(known_call(&trim_operation, &net).answer >> 63, 0);
    test_end();
}

void masks_feedback(void)
{
    rings();
    chain("2,000 registers, each of which reads the next one", 1, 1, 0);
    chain("the same with 64 bits, of which one is lost at times", 64, 1, 1);
    chain("2,000 registers, each of which reads the one before", 64, 0, 1);
}
