/* The designs that the benchmark runs on, several files to a workload.
   Assumes one workload at a time, since all share the same memory. */

#ifndef WORKLOADS_H
#define WORKLOADS_H

#include "../harness/operation.h"

enum {
    MOST_FILES = 8,
    LONGEST_FILE = HEADER_BYTES + RECORD_BYTES * COUNT_LIMIT
};

/* What the operation is lent for each design; `renew`, if not null, changes it
   before each call that is timed. The operation is named, and `renew` null,
   before the designs are made. */
struct workload {
    const struct operation *operation;
    void (*renew)(const struct lent *lent);
    uint32_t files;
    struct lent lent[MOST_FILES];
};

/* Each fills the workload with designs of this many records, for which the
   operation's calls are accepted. */
typedef void workload_maker(struct workload *work, uint32_t count);

workload_maker all_kinds;     /* random designs with all kinds alike */
workload_maker feedback;      /* random designs, many registers */
workload_maker combinational; /* random designs without registers */
workload_maker cut_words;     /* many ands and ors with a constant */
workload_maker chain;         /* registers that each read the next one */
workload_maker ring;          /* the same in a circle, turned by one place */

/* The same designs for trimming by a list: it has the smallest masks, or all
   bits of each width. */
workload_maker feedback_smallest, feedback_all_bits;
workload_maker combinational_smallest, combinational_all_bits;

/* The same designs for a change over: the board list is one that a run has come
   to, with the words of the next cycle at the pins. */
workload_maker feedback_in_service, combinational_in_service,
    cut_words_in_service;

/* Random designs of many widths with inputs, registers and outputs: of all
   kinds but mul, or of all kinds. */
workload_maker clocked;
workload_maker clocked_with_mul;

/* Designs for cycles that are nearly all multipliers: one with the widest, or
   several with all widths. */
workload_maker multipliers;
workload_maker multipliers_of_all_widths;

#endif
