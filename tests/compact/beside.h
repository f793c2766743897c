/* A design and its compacted file, run side by side.
   Assumes accepted files, the second one being compacted from the first. */

#ifndef COMPACT_BESIDE_H
#define COMPACT_BESIDE_H

#include "../harness/netlist.h"
#include "../harness/rng.h"

/* The records of a file that are inputs, and those that are outputs, each in
   record order. */
struct places {
    uint32_t many;
    uint32_t of[COUNT_LIMIT];
};

/* One of the two runs: its file, and two lists that take turns as the board
   list and the next list. A list has room for a word too many. */
struct side {
    const uint8_t *file;
    size_t length;
    uint32_t count;
    struct places pins, outputs;
    unsigned board;
    uint64_t lists[2][COUNT_LIMIT + 1];
};

/* Both runs, and what the calls of both have met. */
struct beside {
    struct side old, made;
    struct {
        int output_not_zero, restarted, refused;
    } met;
};

/* How often something comes: once in so many calls. */
struct chances {
    uint32_t start, refused;
};

/* Compacts an accepted file. What is wrong, or null. */
const char *beside_compact(const struct file *old, uint64_t *masks,
                           struct file *made);

/* Any words in the board lists, others in each. What is wrong, or null: the
   two files must have inputs of equal widths, and so with outputs. */
const char *beside_begin(struct beside *beside, const struct file *old,
                         const struct file *made, struct rng *rng);

/* A start of both, which must be accepted; or a cycle of both with the words
   at the pins that are there, or with drawn ones that are equal in both, after
   which the outputs must be equal. What is wrong, or null. */
const char *beside_start(struct beside *beside);
const char *beside_cycle(struct beside *beside, struct rng *rng);
const char *beside_drawn_cycle(struct beside *beside, struct rng *rng);

/* Cycles of either that must be refused, by 11 or by 12, as many as happens.
   They change none of the words that count in later calls. */
const char *beside_refused(struct beside *beside,
                           const struct chances *chances, struct rng *rng);

/* Such refused calls, and then a start or a drawn cycle of both. */
const char *beside_call(struct beside *beside, const struct chances *chances,
                        struct rng *rng);

/* The same for one of the two, so that no outputs are compared. */
const char *side_call(struct side *side, const struct chances *chances,
                      struct rng *rng);

/* The board list of the next call. */
uint64_t *side_board(struct side *side);

/* A start; whether it is accepted. */
int side_start(struct side *side);

/* Words within their widths at the pins of the old file, also those of the
   other file in the same order if one is given. */
void draw_pins(struct side *old, struct side *made, struct rng *rng);

#endif
