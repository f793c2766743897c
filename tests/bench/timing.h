/* Times two operations that take turns, and keeps the best round of each.
   Assumes a quiet machine; nothing is demanded of the times. */

#ifndef TIMING_H
#define TIMING_H

#include "../harness/operation.h"
#include "workloads.h"

/* A round is kept short, and there are many: a round in which another program
   got the core is then one of many, and the best one is without it. But a
   round is one call at least, and a call may be long. So no round begins once
   a row has taken so much time, but for a few, which every row has. */
enum {
    ROUNDS = 20,
    ROUND_MICROSECONDS = 3000,
    LEAST_ROUNDS = 5,
    ROW_MICROSECONDS = 500000
};

/* Microseconds for one call of each, on the average over all files. */
struct times {
    double library;
    double plain;
};

struct times time_both(function *library, function *plain,
                       const struct workload *work);

#endif
