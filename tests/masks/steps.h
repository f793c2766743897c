/* Steps of a chain or a ring: their order in a file, and where bits are lost.
   Assumes at most as many steps as a file has records. */

#ifndef MASKS_STEPS_H
#define MASKS_STEPS_H

#include "../harness/netlist.h"

/* Bits go from step 0 to step 1 and so on. Forward, each step stands behind
   the one before it, so that a sweep back moves on by one step; backward, it
   stands in front of it. From both ends, they stand at these by turns, so that
   bits go up over all that are left, and then down again. */
enum order { FORWARD, BACKWARD, FROM_BOTH_ENDS, DRAWN, ORDERS };

/* Gives each step its place, from 0 to many - 1. */
void order_steps(enum order order, uint32_t many, uint32_t *places);

/* Begins a test, to whose name that of the order is added. */
void begin_steps(const char *name, enum order order);

/* Whether bits are to be lost at this record: at any but inputs and outputs in
   a short file, and else at the first and last ones and around multiples of
   64. */
int is_stop(const struct netlist *net, uint32_t number);

/* Tries masks, which must be these, and gives the answer. Their judge is not
   asked: it goes up and down the file as often as it takes, which on a ring is
   more work than all else. */
uint64_t try_steps(const struct netlist *net, const uint64_t *masks);

#endif
