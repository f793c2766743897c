/* Registers that read themselves or each other, around multiples of 64.
   Assumes that such registers have what they ask of each other already. */

#include <string.h>

#include "../harness/report.h"
#include "../harness/trial.h"
#include "parts.h"
#include "steps.h"

/* Numbers of records in a full file. */
static const uint32_t numbers[] = {
    0, 1, 62, 63, 64, 65, 126, 127, 128, 129, 1023, 1024, 2046, 2047
};

enum { MANY = sizeof numbers / sizeof *numbers };

static const uint64_t full = 0xffffffffffffffffu;
static const uint64_t asked = 0x8000000180000041u;

/* What a register keeps: all, some bits of what is asked for, or nothing. */
static const uint64_t keeps[] = { 0xffffffffffffffffu, 0x80000000ffffffffu, 0 };

enum { KEEPS = sizeof keeps / sizeof *keeps };

static struct netlist net;
static uint64_t masks[COUNT_LIMIT];

/* A full file of inputs. */
static void begin(void)
{
    netlist_clear(&net);
    while (net.count < COUNT_LIMIT)
        netlist_input(&net, WIDTH_LIMIT);
    memset(masks, 0, sizeof masks);
}

/* Puts another record in the place of an input. */
static void put(uint32_t number, uint8_t kind, uint32_t a, uint64_t keep,
                uint64_t mask)
{
    net.records[number].kind = kind;
    net.records[number].operand[0] = a;
    net.records[number].keep = keep;
    masks[number] = mask;
}

/* Tries the file with an output of a record, in the first input behind it and
   then in the last one, if there is any. */
static void try_output(uint32_t read)
{
    uint32_t first = read + 1, last = COUNT_LIMIT - 1;

    while (first < COUNT_LIMIT && net.records[first].kind != KIND_INPUT)
        first++;
    while (last > read && net.records[last].kind != KIND_INPUT)
        last--;
    if (first == COUNT_LIMIT)
        return;
    put(first, KIND_OUTPUT, read, asked, full);
    try_steps(&net, masks);
    put(first, KIND_INPUT, 0, full, 0);
    put(last, KIND_OUTPUT, read, asked, full);
    try_steps(&net, masks);
}

/* A register reads itself. Nobody else reads it, or an output does. */
static void try_alone(uint32_t number, uint64_t keep)
{
    begin();
    put(number, KIND_REGISTER, number, keep, 0);
    try_steps(&net, masks);
    masks[number] = asked;
    try_output(number);
}

/* A register reads itself, and another one reads it, of which there is an
   output. */
static void try_read(uint32_t number, uint64_t keep, uint32_t reader,
                     uint64_t kept)
{
    begin();
    put(number, KIND_REGISTER, number, keep, asked & kept);
    put(reader, KIND_REGISTER, number, kept, asked);
    try_output(reader);
}

/* Two registers read each other. Nobody else reads them, or there is an output
   of the first. */
static void try_pair(uint32_t first, uint64_t keep, uint32_t second,
                     uint64_t kept)
{
    begin();
    put(first, KIND_REGISTER, second, keep, 0);
    put(second, KIND_REGISTER, first, kept, 0);
    try_steps(&net, masks);
    masks[first] = asked;
    masks[second] = asked & keep;
    try_output(first);
}

/* Any two numbers, with each keep word of the one and another of the other. */
static void every_two(void (*attempt)(uint32_t, uint64_t, uint32_t, uint64_t))
{
    unsigned i, j, k;

    for (i = 0; i < MANY; i++)
        for (j = 0; j < MANY; j++)
            for (k = 0; i != j && k < KEEPS; k++)
                attempt(numbers[i], keeps[k], numbers[j],
                        keeps[KEEPS - 1 - k]);
}

void masks_loops(void)
{
    unsigned i, k;

    test_begin("a register that reads itself, around multiples of 64 and at"
               " 2,047");
    for (i = 0; i < MANY; i++)
        for (k = 0; k < KEEPS; k++)
            try_alone(numbers[i], keeps[k]);
    test_end();
    test_begin("a register that reads itself and that another reads, at such"
               " numbers");
    every_two(try_read);
    test_end();
    test_begin("two registers that read each other, at such numbers");
    every_two(try_pair);
    test_end();
}
