/* The rows of the benchmark: an operation of the library beside plain C.
   Assumes a quiet machine; equal results are demanded, and no times. */

#ifndef ROWS_H
#define ROWS_H

#include <stddef.h>
#include <stdint.h>

#include "../harness/operation.h"
#include "workloads.h"

enum { ROW_COUNTS = 4 };

/* The rows of an operation on one sort of design; count 0 is no row. */
struct row {
    const char *name;
    const struct operation *operation;
    function *plain;
    workload_maker *make;
    uint32_t counts[ROW_COUNTS];
};

/* Prints lines of fields parted by tabs. The first has the word "rounds",
   their number, the least length of one, the number that a row has however
   long they take, and the time after which it has no others; lengths and times
   are in microseconds. Then there is a line for each row: name, records,
   designs, and the microseconds for a call of the library and of plain C. With
   the one option --once there are no times: each side is called once for each
   design, by `counted`. Gives the status to end with, which is 1 if results
   differ. */
int run_rows(int argc, char **argv, const struct row *rows, size_t count);

#endif
