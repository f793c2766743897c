/* The parts of the test of check, and the two calls that they share.
   Assumes that options_begin was called before. */

#ifndef CHECK_PARTS_H
#define CHECK_PARTS_H

#include "../harness/netlist.h"

/* Runs several named tests. */
void check_rules(void);

/* Both must give this answer for these bytes. */
void expect_bytes(const uint8_t *bytes, size_t length, uint64_t answer);

/* Both must refuse the netlist so; 0 means that they must accept it. */
void expect_check(const struct netlist *net, unsigned refusal,
                  uint32_t record);

#endif
