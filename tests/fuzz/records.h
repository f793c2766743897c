/* A file read into a netlist, and blocks of its records put in or taken out.
   Assumes nothing of the bytes: fields are taken as they stand. */

#ifndef RECORDS_H
#define RECORDS_H

#include "../harness/netlist.h"

/* Reads as many whole records as there are, up to NETLIST_ROOM; the header is
   made to fit them. */
void netlist_read(struct netlist *net, const uint8_t *bytes, size_t length);

/* Takes out `count` records from `at` on. Operands that name a later record
   go with it, and the header is made to fit. */
void records_delete(struct netlist *net, uint32_t at, uint32_t count);

/* Puts in a block that began at record `block_at` of another netlist, or of the
   same one. Operands of the block name records as far away as before; others
   that name a moved record go with it. As many records are put in as the limit
   leaves room for, and the header is made to fit. */
void records_insert(struct netlist *net, uint32_t at,
                    const struct record *block, uint32_t count,
                    uint32_t block_at);

#endif
