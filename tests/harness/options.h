/* What the test programs take from their caller: the seed, and where to save.
   Assumes that it is read before the first call is tried. */

#ifndef OPTIONS_H
#define OPTIONS_H

#include "operation.h"

/* Prints the seed and gives it. */
uint64_t options_begin(int argc, char **argv);

/* Saves the files and lists of a call that failed, under names that have the
   seed and its number, and prints its numbers. */
void save_call(const struct operation *operation, const struct lent *lent,
               unsigned long call);

#endif
