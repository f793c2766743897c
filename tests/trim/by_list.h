/* Calls that trim a design by a list of masks, one word for each record.
   Assumes that a named test has begun, which notes every difference. */

#ifndef TRIM_BY_LIST_H
#define TRIM_BY_LIST_H

#include "../harness/known.h"

/* Tries the list; the memory of the call, and the library's answer. */
struct known list_call(const struct netlist *net, const uint64_t *list);

/* The same, which must be accepted with the tally of the list, or be refused
   by 14 at this record. */
struct known expect_accepted(const struct netlist *net, const uint64_t *list);
void expect_faulty(const struct netlist *net, const uint64_t *list,
                   uint32_t record);

/* Notes a failure unless these are the keep words of the file written. */
void demand_keeps(const struct known *known, const uint64_t *keeps,
                  uint32_t count);

#endif
