/* One run of 01: a file, a board list, and calls that are accepted or not.
   Assumes that a named test has begun, which notes every difference. */

#ifndef RUNS_CALLS_H
#define RUNS_CALLS_H

#include "../harness/words.h"
#include "scramble.h"

/* A netlist, which its user fills, with its file, its masks and its trimmed
   file. The masks are the smallest or, by a list, those that its user has put
   there. */
struct masked {
    struct netlist net;
    struct file file, trimmed;
    uint64_t masks[COUNT_LIMIT], smallest[COUNT_LIMIT];
    int by_list;
    uint32_t registers;
    uint32_t cut; /* keep words that the trimming changed */
};

/* Writes the file and has the library trim it, which it must not refuse. */
void trim_netlist(struct masked *masked);
void trim_netlist_by_list(struct masked *masked);

/* The second runs of 01: of the same file or of the trimmed one, plain or
   scrambled. The first run is of sort 0. */
enum { TRIMMED = 1, SCRAMBLED = 2, SORTS = 4 };

extern const char *const sort_names[SORTS];

/* The refused cycles of a run: by 11, by 12 for a word put at an input, and
   by 12 for a word that its first board list has at a register. */
enum refused_cycle { BY_11, BY_12, BY_12_AT_REGISTER, REFUSED_CYCLES };

/* What is lent to a cycle: the file, the run's board list, and a next list,
   which after a cycle holds its values. Cycles are the library's or, where
   values are changed, the model's. */
struct run {
    const struct netlist *net;
    struct lent lent;
    model_change *change;
    void *context;
    struct scrambler scrambler;
    struct rng rng;
    unsigned long cycles;
    unsigned long refused[REFUSED_CYCLES];
    uint64_t lists[2][2 * COUNT_LIMIT + 2];
};

/* A run of this sort with any words in its board list but for the registers,
   which get words within their widths. */
void run_begin(struct run *run, struct masked *masked, unsigned sort,
               struct rng rng);

/* A call that must be accepted: a start, or a cycle with these words, one for
   each record, of which those of the inputs are put. */
void run_start(struct run *run);
void run_cycle(struct run *run, const uint64_t *words);

/* A cycle that must be refused, by 11 or by 12. */
void run_refused(struct run *run);

/* The words of the board list, and the values of the last accepted cycle. */
uint64_t *run_board(const struct run *run);
const uint64_t *run_values(const struct run *run);

#endif
