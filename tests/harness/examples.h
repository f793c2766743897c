/* The designs that several tests use: examples of 01, and a file to break.
   Assumes full keep words, as the examples do. */

#ifndef EXAMPLES_H
#define EXAMPLES_H

#include "known.h"

enum { RAMP_BYTES = 8 + 24 * 7 };

/* The ramp, written out byte by byte, so that a slip in the tests' own
   writer shows. */
extern const uint8_t ramp_bytes[RAMP_BYTES];

/* All of them, with their masks, and no records at all. */
enum { RAMP, HIGH_RAMP, COUNTER, SHIFT_CHAIN, SWAPPED_PAIR, UNREAD_MUX,
       NO_RECORDS, EXAMPLES };

extern const struct worked paper_examples[EXAMPLES];

/* Each fills `net`. The ramp's extract has this width and place. */
void example_ramp(struct netlist *net, uint8_t width, uint64_t k);
void example_counter(struct netlist *net);
void example_shift_chain(struct netlist *net);

/* A file of three inputs and two adds, in which each rule can be broken. */
enum { ADDS_FIRST = 3, ADDS_SECOND, ADDS_COUNT, RULES = 11 };

/* The numbers of the rules in the order in which they are tried. */
extern const unsigned rules[RULES];

void adds_write(struct file *file);

/* Breaks a rule and gives the record that the refusal names; from 6 on it is
   this add. Each break changes a byte of its own or the length, but for 6 and
   15, which change the kind. */
uint32_t adds_break(struct file *file, unsigned rule, uint32_t add);

#endif
