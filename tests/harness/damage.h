/* Ways to break a valid netlist, so that every refusal of 01 is reached.
   Assumes the outcome is judged by the model: damage may hit other rules. */

#ifndef DAMAGE_H
#define DAMAGE_H

#include "netlist.h"
#include "rng.h"

/* What is done to a design's records or to the written file. */
typedef void damage_records(struct rng *rng, struct netlist *net);
typedef void damage_bytes(struct rng *rng, struct file *file);

/* Aims at one refusal from 6 to 10, or at 15, in one record, or from 1 to 5 in
   the written file. */
void damage_record(struct rng *rng, struct netlist *net, unsigned refusal);
void damage_header(struct rng *rng, struct file *file, unsigned refusal);

/* Aims at any of those in one record. */
damage_records damage_rule;

/* Sets one field of one record to a value at the edge of some rule, changes a
   kind to another valid one, copies a record over another one or swaps two,
   or sets the k of a record, an extract or a shift if there is one, near 2^64
   or beyond the width. */
damage_records damage_edge, damage_kind, damage_order, damage_far_k;

/* Makes a register read a later record and breaks that record's kind or
   width. Needs two records. */
damage_records damage_ahead;

/* Cuts the file or adds bytes to it, changes one byte or one bit anywhere, or
   replaces it by random bytes, more or less like a netlist. */
damage_bytes damage_length, damage_byte, damage_bit, damage_all;

#endif
