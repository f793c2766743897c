/* What every operation is put through, and what these tests share.
   Assumes one operation at a time, and that a named test has begun. */

#ifndef PARTS_H
#define PARTS_H

#include "lend.h"
#include "operation.h"
#include "styles.h"
#include "trial.h"

/* The operation that is tried, and the designs of the last call made. */
extern const struct operation *tried;
extern struct netlist case_nets[FILES];

/* A call that is accepted, its first file having so many records, and the
   style of this turn or, for ALL_ALIKE, all kinds alike. A second file has a
   count of its own, and the limit where the first one has. */
enum { ALL_ALIKE = STYLES };

struct lent make_case(struct rng *rng, uint32_t count, unsigned turn);

/* Gives about half of the lists that have a right length another one. */
void draw_lengths(struct rng *rng, struct lent *lent);

/* Tries a call, which must be accepted unless a list of any length can be too
   short for it. */
void try_accepted(const struct lent *lent);

/* One turn of a test of an operation; each turn draws numbers of its own. */
typedef void part(struct rng *rng, unsigned turn);

part memory_forbidden, memory_alignments, memory_neighbours,
    memory_old_contents, memory_earlier_calls;
part wrong_lengths, huge_lengths;
part broken_rules, broken_shifts, broken_multipliers, damaged_files;
part valid_designs, valid_sizes, spoilt_words;

/* So many broken shifts are tried, each as three kinds and in its own turn, and
   so many broken multipliers. */
enum { SHIFT_BREAKS = 14, MULTIPLIER_BREAKS = 10 };

/* Judges the valid designs of all operations by a named test. */
void judge_designs(void);

#endif
