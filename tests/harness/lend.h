/* The memory of a call: files, lists of the right lengths, and numbers.
   Assumes one call at a time: the next one takes the same memory. */

#ifndef LEND_H
#define LEND_H

#include "operation.h"

/* How many files the operation takes, its netlists, and how many parameters
   it has. */
unsigned files_of(const struct operation *operation);
unsigned parameters_of(const struct operation *operation);

/* Whether it is a list for which only one length is right. */
int is_measured(const struct parameter *parameter);

/* The length in bytes that such a list must have beside the files lent, by
   the counts in their headers, and 0 for any other parameter. A file without
   a header counts as one of three records. */
size_t right_length(const struct operation *operation,
                    const struct lent *lent, unsigned parameter);

/* A call of these designs, one for each file, as they are: lists of the right
   lengths that hold any bytes, lists of any length and numbers as drawn, and
   then what the operation's `prepare` puts in. Each list has room for
   FILE_ROOM bytes, so that a test can change its length. */
struct lent lend(const struct operation *operation, struct rng *rng,
                 const struct netlist *nets);

/* A call of these files as they are, damaged or not: lists of the right
   lengths that hold any bytes. Nothing is prepared. */
struct lent lend_files(const struct operation *operation, struct rng *rng,
                       const struct file *files);

/* Draws a list or a number anew, as for a call of files. */
void lend_anew(const struct operation *operation, struct rng *rng,
               struct lent *lent, unsigned parameter);

/* Draws some of what is read anew, a list as a whole, or changes a bit of it
   or a few. */
void lend_spoilt(const struct operation *operation, struct rng *rng,
                 struct lent *lent);

#endif
