/* Rings of 1 to 200 registers that turn a word by one place, and stopped ones.
   Assumes that each bit of these records is taken from one bit of another. */

#include <string.h>

#include "../harness/known.h"
#include "../harness/operations.h"
#include "../harness/report.h"
#include "../harness/trial.h"
#include "parts.h"
#include "steps.h"

enum { LONGEST = 200, SHORT = 4, NARROW = 8 };

/* A step has a register, all bits of its word but one, that one bit, and the
   word that is put together from the two. Its register reads the word of the
   next step, and that of the last step the word of the first. */
enum { STATE, REST, SINGLE, WORD, RECORDS };

/* The word is put together as it was, or its lowest bit goes to the top, or
   its top bit to the bottom. */
enum turn { AS_IT_WAS, DOWN, UP };

/* A few inputs stand in front of the steps, others at each length, so that any
   record of a step comes to stand at a multiple of 64. Then comes the register
   of the first step in the file, and its output is right behind it: so bits go
   through the last record of the file. */
static struct netlist net;
static uint32_t places[LONGEST];
static uint32_t inputs;

static uint32_t record_of(uint32_t step, uint32_t part)
{
    uint32_t number = RECORDS * places[step] + part;

    return inputs + (number == 0 ? 0 : number + 1);
}

static void add_step(unsigned width, enum turn turn)
{
    uint8_t w = (uint8_t)width, less = (uint8_t)(width - 1);
    uint32_t state, rest, single;

    state = netlist_add(&net, KIND_REGISTER, w, 0, 0, 0, 0);
    if (state == inputs)
        netlist_output(&net, state, 1);
    rest = netlist_add(&net, KIND_EXTRACT, less, state, 0, 0,
                       turn == UP ? 0 : 1);
    single = netlist_add(&net, KIND_EXTRACT, 1, state, 0, 0,
                         turn == UP ? less : 0);
    if (turn == DOWN)
        netlist_add(&net, KIND_CONCAT, w, single, rest, 0, 0);
    else
        netlist_add(&net, KIND_CONCAT, w, rest, single, 0, 0);
}

/* The words of so many steps are turned. */
static void make_ring(enum order order, unsigned width, uint32_t steps,
                      enum turn turn, uint32_t turning)
{
    uint32_t i;

    inputs = steps % RECORDS;
    order_steps(order, steps, places);
    netlist_clear(&net);
    while (net.count < inputs)
        netlist_input(&net, (uint8_t)width);
    for (i = 0; i < steps; i++)
        add_step(width, i < turning ? turn : AS_IT_WAS);
    for (i = 0; i < steps; i++)
        net.records[record_of(i, STATE)].operand[0]
            = record_of((i + 1) % steps, WORD);
}

/* Follows a bit from record to record, each of which takes it from one bit of
   another, until it is not kept or comes to where a bit has been. */
static void follow(uint64_t *masks, uint32_t number, unsigned bit)
{
    while ((masks[number] >> bit & 1) == 0) {
        const struct record *record = &net.records[number];
        unsigned low = net.records[record->operand[1]].width;

        masks[number] |= (uint64_t)1 << bit;
        if ((record->keep >> bit & 1) == 0)
            return;
        number = record->operand[0];
        if (record->kind == KIND_EXTRACT)
            bit += (unsigned)record->k;
        if (record->kind == KIND_CONCAT && bit < low)
            number = record->operand[1];
        else if (record->kind == KIND_CONCAT)
            bit -= low;
    }
}

/* Outputs keep one bit each. */
static uint64_t try_ring(void)
{
    static uint64_t masks[COUNT_LIMIT];
    uint32_t i;
    unsigned bit;

    memset(masks, 0, sizeof masks);
    for (i = 0; i < net.count; i++) {
        const struct record *record = &net.records[i];

        if (record->kind != KIND_OUTPUT)
            continue;
        masks[i] = width_mask(record->width);
        for (bit = 0; record->keep >> bit != 1; bit++)
            ;
        follow(masks, record->operand[0], bit);
    }
    return try_steps(&net, masks);
}

/* Each turn moves the bit on by one place. When it comes back, it has been at
   all places of all words, unless the number of turns in a round has a factor
   in common with the width, a power of two: then it comes back so many times
   sooner. A step has its word three times, once in two parts. */
static void try_unstopped(unsigned width, uint32_t steps, uint32_t turning)
{
    uint64_t words = 3 * (uint64_t)steps, widths, ones;
    unsigned common = width;

    while (turning % common != 0)
        common /= 2;
    widths = (words + 1 + inputs) * width;
    ones = words * (width / common) + width;
    demand_answer(try_ring(), (widths << 32) + ones);
}

/* Takes bits away at one record, at which nothing else is cut. */
static void try_without(uint32_t number, uint64_t bits)
{
    struct record *record = &net.records[number];

    record->keep &= ~bits;
    try_ring();
    record->keep = width_mask(record->width);
}

/* All steps turn. */
static void every_turned(enum order order)
{
    uint32_t steps;

    for (steps = 1; steps <= LONGEST; steps++) {
        make_ring(order, WIDTH_LIMIT, steps, order == FORWARD ? DOWN : UP,
                  steps);
        try_unstopped(WIDTH_LIMIT, steps, steps);
    }
}

/* One step turns, so that every bit is cared for. */
static void one_turned(enum order order)
{
    static const uint32_t chosen[] = { 1, 2, 16, 63, 64, 65, 128, LONGEST };
    unsigned i;
    uint32_t steps;

    for (steps = 1; steps <= LONGEST; steps++) {
        make_ring(order, NARROW, steps, steps % 2 == 0 ? DOWN : UP, 1);
        try_unstopped(NARROW, steps, 1);
    }
    for (i = 0; i < sizeof chosen / sizeof *chosen; i++) {
        make_ring(order, WIDTH_LIMIT, chosen[i], DOWN, 1);
        try_unstopped(WIDTH_LIMIT, chosen[i], 1);
    }
}

/* Each single bit of each record of a short ring is not kept. */
static void every_bit(enum order order)
{
    uint32_t steps, i;
    unsigned bit;

    for (steps = 1; steps <= SHORT; steps++) {
        make_ring(order, WIDTH_LIMIT, steps, DOWN, steps);
        demand_answer(known_call(&trim_operation, &net).answer >> 63, 0);
        for (i = 0; i < net.count; i++)
            for (bit = 0; is_stop(&net, i) && bit < net.records[i].width;
                 bit++)
                try_without(i, (uint64_t)1 << bit);
    }
}

/* Nothing goes on from one record, while a second bit is on its way from the
   middle. Then one bit of 8 does not go on, which it may reach after many
   rounds only. That takes long, so an eighth of the records have to do, others
   at each length. */
static void every_stop(enum order order)
{
    uint32_t steps, i;

    for (steps = 1; steps <= LONGEST; steps++) {
        make_ring(order, WIDTH_LIMIT, steps, UP, steps);
        netlist_output(&net, record_of(steps / 2, WORD), 1 << 5);
        for (i = 0; i < net.count; i++)
            if (is_stop(&net, i) && net.records[i].width > 1)
                try_without(i, width_mask(WIDTH_LIMIT));
        make_ring(order, NARROW, steps, DOWN, 1);
        for (i = 0; i < net.count; i++)
            if (is_stop(&net, i) && (i + steps) % 8 == 0)
                try_without(i, (uint64_t)1 << (i + steps) / 8
                                   % net.records[i].width);
    }
}

/* Where many steps stand behind the one before, all lengths with 64 bits take
   long. So they are tried in two orders, and in the others a choice of them. */
void masks_rings(void)
{
    static const struct {
        const char *name;
        void (*attempt)(enum order order);
        unsigned orders;
    } tests[] = {
        { "rings of 1 to 200 registers that all turn", every_turned, 2 },
        { "rings of 1 to 200 registers of which one turns", one_turned,
          ORDERS },
        { "rings of 1 to 200 registers, stopped", every_stop, ORDERS },
        { "rings of 1 to 4 registers with each bit not kept", every_bit,
          ORDERS }
    };
    unsigned i, order;

    for (i = 0; i < sizeof tests / sizeof *tests; i++)
        for (order = 0; order < tests[i].orders; order++) {
            begin_steps(tests[i].name, (enum order)order);
            tests[i].attempt((enum order)order);
            test_end();
        }
}
