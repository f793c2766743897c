/* Chains of 1 to 200 registers, and of 2,048 records, and stopped ones.
   Assumes that masks are known: what is asked for, cut by each keep word. */

#include <string.h>

#include "../harness/known.h"
#include "../harness/operations.h"
#include "../harness/report.h"
#include "../harness/trial.h"
#include "parts.h"
#include "steps.h"

enum { LONGEST = 200, OUTPUTS = 2 };

/* The first step is asked for some bits and one in the middle for others, so
   that all behind this one get bits twice. */
static const uint64_t asks[OUTPUTS] = {
    0xc30000000000003cu, 0x00000ff000000f81u
};

/* How a chain is built: of registers alone, or with a gate behind each of
   them, or with the outputs at the front of the file. */
enum shape { PLAIN, GATED, OUTPUTS_FIRST, SHAPES };

/* A step is a register that reads the next step; the last step is an input. If
   there are gates, there is one for each step: a xor of its register and of
   record 0, an input, and this is what others read of the step. At every other
   length there is one more input, so that either record of a step comes to
   stand at a multiple of 64. Outputs at the front have registers of their own,
   which read the steps. */
static struct netlist net;
static uint32_t places[COUNT_LIMIT];
static uint32_t steps, first_state, gates, outputs[OUTPUTS];

/* The register or input of a step, and what is read of it. */
static uint32_t state_of(uint32_t step)
{
    return first_state + (1 + gates) * places[step];
}

static uint32_t read_of(uint32_t step)
{
    return state_of(step) + gates;
}

/* The steps read nothing yet but, in a gate, the state. */
static void add_steps(void)
{
    uint32_t i, state;

    first_state = net.count;
    for (i = 0; i < steps; i++) {
        state = netlist_add(&net, KIND_REGISTER, WIDTH_LIMIT, 0, 0, 0, 0);
        if (gates)
            netlist_add(&net, KIND_XOR, WIDTH_LIMIT, state, 0, 0, 0);
    }
}

static void make_chain(enum order order, enum shape shape, uint32_t many)
{
    uint32_t i;

    steps = many;
    gates = shape == GATED;
    order_steps(order, steps, places);
    netlist_clear(&net);
    while (net.count < gates * (1 + steps % 2))
        netlist_input(&net, WIDTH_LIMIT);
    for (i = 0; shape == OUTPUTS_FIRST && i < OUTPUTS; i++) {
        netlist_add(&net, KIND_REGISTER, WIDTH_LIMIT, 0, 0, 0, 0);
        outputs[i] = netlist_output(&net, net.count - 1, asks[i]);
    }
    add_steps();
    for (i = 0; i + 1 < steps; i++)
        net.records[state_of(i)].operand[0] = read_of(i + 1);
    net.records[state_of(steps - 1)].kind = KIND_INPUT;
    for (i = 0; i < OUTPUTS; i++) {
        uint32_t read = read_of(i * (steps / OUTPUTS));

        if (shape == OUTPUTS_FIRST)
            net.records[outputs[i] - 1].operand[0] = read;
        else
            outputs[i] = netlist_output(&net, read, asks[i]);
    }
}

/* Goes from step to step: each is asked for what the outputs want of it, and
   for what the step before is asked for and keeps. */
static void find_masks(uint64_t *masks)
{
    uint64_t d = 0;
    uint32_t i;

    memset(masks, 0, 8 * (size_t)net.count);
    for (i = 0; i < OUTPUTS; i++) {
        uint32_t read = net.records[outputs[i]].operand[0];

        masks[outputs[i]] = width_mask(WIDTH_LIMIT);
        masks[read] |= asks[i];
        if (read < first_state)
            masks[net.records[read].operand[0]]
                |= asks[i] & net.records[read].keep;
    }
    for (i = 0; i < steps; i++) {
        masks[read_of(i)] |= d;
        d = masks[read_of(i)] & net.records[read_of(i)].keep;
        if (gates) {
            masks[0] |= d;
            masks[state_of(i)] = d;
            d &= net.records[state_of(i)].keep;
        }
    }
}

static void try_chain(void)
{
    static uint64_t masks[COUNT_LIMIT];

    find_masks(masks);
    try_steps(&net, masks);
}

/* Takes bits away at one record, at which nothing else is cut. */
static void try_without(uint32_t number, uint64_t bits)
{
    net.records[number].keep = ~bits;
    try_chain();
    net.records[number].keep = width_mask(WIDTH_LIMIT);
}

/* At one record after the other nothing goes on, and then all bits but the
   lowest one that is asked for. */
static void try_stops(void)
{
    uint32_t i;

    for (i = 0; i < net.count; i++)
        if (is_stop(&net, i)) {
            try_without(i, width_mask(WIDTH_LIMIT));
            try_without(i, asks[0] & -asks[0]);
        }
}

/* One bit after the other is lost on the way. */
static void try_losing(void)
{
    uint32_t i;

    for (i = 0; i < steps; i++)
        net.records[read_of(i)].keep &= ~((uint64_t)1 << 64 * i / steps);
    try_chain();
}

static void every_length(enum order order, enum shape shape)
{
    uint32_t registers;

    for (registers = 1; registers <= LONGEST; registers++) {
        make_chain(order, shape, registers + 1);
        try_chain();
        demand_answer(known_call(&trim_operation, &net).answer >> 63, 0);
        try_stops();
        try_losing();
    }
}

/* All 2,048 records. The last register keeps nothing, then all keep most. */
static void full_file(enum order order, enum shape shape, uint32_t others)
{
    make_chain(order, shape, COUNT_LIMIT - others);
    try_chain();
    try_without(state_of(steps - 2), width_mask(WIDTH_LIMIT));
    try_losing();
}

void masks_chains(void)
{
    static const char *const names[SHAPES] = {
        "chains of 1 to 200 registers",
        "chains of 1 to 200 registers with gates",
        "chains of 1 to 200 registers, outputs first"
    };
    unsigned order, shape;

    for (order = 0; order < ORDERS; order++) {
        for (shape = 0; shape < SHAPES; shape++) {
            begin_steps(names[shape], (enum order)order);
            every_length((enum order)order, (enum shape)shape);
            test_end();
        }
        begin_steps("chains of 2,048 records", (enum order)order);
        full_file((enum order)order, PLAIN, OUTPUTS);
        full_file((enum order)order, OUTPUTS_FIRST, 2 * OUTPUTS);
        test_end();
    }
}
