/* Makes a netlist keep the rules of 01, with as few changes as it takes.
   Assumes at most COUNT_LIMIT records with any fields. */

#ifndef REPAIR_H
#define REPAIR_H

#include "../harness/netlist.h"

/* After this, check accepts the netlist. A record that fits already stays as
   it is. */
void netlist_repair(struct netlist *net);

#endif
