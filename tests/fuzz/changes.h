/* Small changes to a netlist that is to be accepted after a repair.
   Assumes that the caller repairs it, or means to have it refused. */

#ifndef CHANGES_H
#define CHANGES_H

#include "../harness/netlist.h"
#include "../harness/rng.h"

/* Makes one change, drawn from all of them. */
void change_netlist(struct rng *rng, struct netlist *net);

/* Repairs the netlist and breaks it in one to three places. One without
   records stays as it is. */
void break_netlist(struct rng *rng, struct netlist *net);

/* Puts a few records of another netlist into this one, or now and then all
   of them. */
void join_netlists(struct rng *rng, struct netlist *net,
                   const struct netlist *other);

#endif
