/* A netlist in memory, which tests build or damage and then write as a file.
   Assumes nothing is valid: every field may hold any value of its size. */

#ifndef NETLIST_H
#define NETLIST_H

#include <stddef.h>
#include <stdint.h>

#include "../model/record.h"

/* The tests need one record beyond the limit. */
enum { NETLIST_ROOM = COUNT_LIMIT + 1 };

/* The count written to the header stands apart from the records present, so
   that a test can make them differ. */
struct netlist {
    uint8_t mark[3];
    uint16_t version;
    uint8_t byte_5;
    uint16_t header_count;
    uint32_t count;
    struct record records[NETLIST_ROOM];
};

/* A file in a buffer with room for the longest that the tests make. */
enum { FILE_ROOM = HEADER_BYTES + RECORD_BYTES * 65535 + 4096 };

struct file {
    size_t length;
    uint8_t bytes[FILE_ROOM];
};

/* Whether the kind uses a field, one of the letters "abck" of 01. */
int kind_uses(uint8_t kind, char field);

/* The count of operands that the kind uses: a, then b, then c. */
unsigned kind_operands(uint8_t kind);

/* Whether the kind moves a by k places, or compares a and b, or is an and or
   an or, with which words are cut. */
int kind_shifts(uint8_t kind);
int kind_compares(uint8_t kind);
int kind_cuts(uint8_t kind);

void netlist_clear(struct netlist *net);

/* Append a record with a full keep word and give its number. */
uint32_t netlist_add(struct netlist *net, uint8_t kind, uint8_t width,
                     uint32_t a, uint32_t b, uint32_t c, uint64_t k);
uint32_t netlist_input(struct netlist *net, uint8_t width);

/* Append an output of signal a, which keeps and asks for these bits only. */
uint32_t netlist_output(struct netlist *net, uint32_t a, uint64_t keep);

/* The place, 0 for a and 1 for b, of the only constant that an and or an or
   reads, and -1 for any other record. Then the bits in which the result hangs
   on this constant alone; none for any other record. */
int netlist_constant(const struct netlist *net, uint32_t number);
uint64_t netlist_settled(const struct netlist *net, uint32_t number);

void netlist_write(const struct netlist *net, struct file *file);

#endif
