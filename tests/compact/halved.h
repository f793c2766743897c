/* A design of 2,048 records of which every second one goes.
   Assumes that the test knows the survivors by their numbers. */

#ifndef COMPACT_HALVED_H
#define COMPACT_HALVED_H

#include "../harness/netlist.h"

enum { HALVED_LEFT = COUNT_LIMIT / 2, HALVED_REGISTERS = HALVED_LEFT - 1 };

/* Constants that nobody reads stand before each register of a ring, in which
   each names the next one, and before an output of the first. So each number
   becomes half of what it was, also where it takes two bytes. The reset state
   of a register is its new number. */
static inline void halved_make(struct netlist *net)
{
    uint32_t i;

    netlist_clear(net);
    for (i = 0; i < HALVED_REGISTERS; i++) {
        netlist_add(net, KIND_CONSTANT, 64, 0, 0, 0, 1);
        netlist_add(net, KIND_REGISTER, 64,
                    2 * ((i + 1) % HALVED_REGISTERS) + 1, 0, 0, i);
    }
    netlist_add(net, KIND_CONSTANT, 64, 0, 0, 0, 1);
    netlist_output(net, 1, ~(uint64_t)0);
}

#endif
