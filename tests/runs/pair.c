/* Makes five runs step by step, and compares the values of their cycles.
   Assumes that runs share nothing, so that their calls may take turns. */

#include "pair.h"

#include <inttypes.h>
#include <stdio.h>

#include "../harness/report.h"

enum { REFUSED_ONE_IN = 5, STARTS_ONE_IN = 9, EQUAL_ONE_IN = 4 };

static struct masked *masked;
static struct run first, seconds[SORTS];

/* Whether all runs get the same words, what the pairs have met so far, how
   many cycles came since the last start, and whether some came before it. */
static int equal;
static unsigned met[SORTS];
static unsigned long on_end;
static int restarted;

/* The words put at the inputs of the first run, and its states, both of the
   cycle at hand. */
static uint64_t words[COUNT_LIMIT], states[COUNT_LIMIT];

static const struct record *record(uint32_t number)
{
    return &masked->net.records[number];
}

static struct rng branch(struct rng *rng)
{
    return rng_for(rng_word(rng), 0);
}

static uint64_t alike_at(struct run *run, uint32_t number, uint64_t word)
{
    return equal ? word : alike(&run->rng, word, masked->masks[number],
                                record(number)->width);
}

/* Refused cycles at any place, as many as it happens. */
static void disturb(struct run *run, uint32_t one_in)
{
    while (rng_once_in(&run->rng, one_in))
        run_refused(run);
}

/* Makes some states too wide, so that no cycle is accepted before a start. */
static void spoil(struct run *run)
{
    uint32_t i, one_in = 1u << rng_below(&run->rng, 4);

    for (i = 0; i < masked->net.count; i++)
        if (record(i)->kind == KIND_REGISTER && record(i)->width < 64
            && rng_once_in(&run->rng, one_in))
            run_board(run)[i]
                |= (uint64_t)1 << rng_between(&run->rng, record(i)->width, 63);
    disturb(run, 2);
}

/* The registers have the cared bits of the first run's; all other words of
   the board list are its own. Where the first accepted call is a start, the
   states before it may be too wide, in any of the runs. */
static void begin(struct rng *rng, int opens_with_start)
{
    unsigned sort;
    uint32_t i;

    on_end = 0;
    restarted = 0;
    equal = rng_once_in(rng, EQUAL_ONE_IN);
    run_begin(&first, masked, 0, branch(rng));
    for (sort = 0; sort < SORTS; sort++) {
        struct run *run = &seconds[sort];

        met[sort] = 0;
        run_begin(run, masked, sort, branch(rng));
        for (i = 0; i < masked->net.count; i++)
            if (record(i)->kind == KIND_REGISTER)
                run_board(run)[i] = alike_at(run, i, run_board(&first)[i]);
        if (opens_with_start)
            spoil(run);
    }
    if (opens_with_start)
        spoil(&first);
}

static void start_all(void)
{
    unsigned sort;

    disturb(&first, REFUSED_ONE_IN);
    run_start(&first);
    for (sort = 0; sort < SORTS; sort++) {
        disturb(&seconds[sort], REFUSED_ONE_IN);
        run_start(&seconds[sort]);
    }
    restarted = first.cycles > 0;
    on_end = 0;
}

/* The bits in which a value of this run's cycle is not the first's. */
static uint64_t differing(unsigned sort, uint32_t number)
{
    return run_values(&first)[number] ^ run_values(&seconds[sort])[number];
}

/* Whether the record is a mux that takes another operand in this run than in
   the first, as only one with D 0 may. */
static int selector_differed(unsigned sort, uint32_t number)
{
    return record(number)->kind == KIND_MUX
        && differing(sort, record(number)->operand[0]) != 0;
}

/* What an and or an or with one constant met: the word that is cut differed
   where the constant alone decides on bits of D, and perhaps the constant did
   so elsewhere. */
static unsigned cut_met(unsigned sort, uint32_t number)
{
    int place = netlist_constant(&masked->net, number);
    const uint32_t *operand = record(number)->operand;
    uint64_t d = masked->masks[number] & record(number)->keep;

    if (place < 0 || (differing(sort, operand[1 - place]) & d
                      & netlist_settled(&masked->net, number)) == 0)
        return 0;
    return differing(sort, operand[place]) == 0
        ? CUT_BITS_DIFFERED : CUT_BITS_DIFFERED | CONSTANT_DIFFERED;
}

/* The claim, for the cycle that both have just made. */
static void compare(unsigned sort)
{
    uint32_t i;

    for (i = 0; i < masked->net.count; i++) {
        uint64_t one = run_values(&first)[i];
        uint64_t two = run_values(&seconds[sort])[i];
        uint64_t mask = masked->masks[i];
        int is_output = record(i)->kind == KIND_OUTPUT;

        met[sort] |= one != two ? VALUE_DIFFERED : 0;
        met[sort] |= is_output && one != 0 ? OUTPUT_NOT_ZERO : 0;
        met[sort] |= selector_differed(sort, i) ? SELECTOR_DIFFERED : 0;
        met[sort] |= one & mask & ~masked->smallest[i] ? MORE_NOT_ZERO : 0;
        met[sort] |= cut_met(sort, i);
        if (((one ^ two) & mask) == 0 && (!is_output || one == two)
            && (sort != TRIMMED || (two & ~mask) == 0))
            continue;
        if (test_fail())
            printf("      %s, cycle %lu: signal %" PRIu32 " has %016" PRIx64
                   ", in the first run %016" PRIx64 ", its mask is %016"
                   PRIx64 "\n", sort_names[sort], first.cycles, i, two, one,
                   mask);
        return;
    }
}

/* Where the words that the second run's cycle gets are not the first's. */
static void note_words(unsigned sort, const uint64_t *others)
{
    uint32_t i;

    for (i = 0; i < masked->net.count; i++) {
        uint64_t state = run_board(&seconds[sort])[i] ^ states[i];
        uint64_t mask = masked->masks[i];

        if (record(i)->kind == KIND_INPUT && others[i] != words[i])
            met[sort] |= INPUT_DIFFERED;
        if (record(i)->kind == KIND_REGISTER)
            met[sort] |= (state & ~mask ? STATE_OUTSIDE_MASK : 0)
                       | (state & mask & ~record(i)->keep ? STATE_CUT : 0);
    }
}

static void cycle_second(unsigned sort)
{
    static uint64_t others[COUNT_LIMIT];
    struct run *run = &seconds[sort];
    uint32_t i;

    disturb(run, REFUSED_ONE_IN);
    for (i = 0; i < masked->net.count; i++)
        if (record(i)->kind == KIND_INPUT)
            others[i] = alike_at(run, i, words[i]);
    note_words(sort, others);
    run_cycle(run, others);
    compare(sort);
    met[sort] |= restarted ? START_IN_MID_RUN : 0;
    met[sort] |= masked->registers > 0 && on_end > masked->registers
               ? MANY_CYCLES : 0;
}

static void cycle_all(void)
{
    unsigned sort;

    disturb(&first, REFUSED_ONE_IN);
    memcpy(states, run_board(&first), 8 * (size_t)masked->net.count);
    put_words(words, &first.rng, &masked->net, KIND_INPUT);
    run_cycle(&first, words);
    on_end++;
    for (sort = 0; sort < SORTS; sort++)
        cycle_second(sort);
}

/* In half of the runs there is about one start. */
void try_pairs(struct masked *of, struct rng *rng, unsigned calls)
{
    int opens_with_start = rng_once_in(rng, 2);
    uint32_t one_in = rng_once_in(rng, 2) ? STARTS_ONE_IN : calls;
    unsigned i;

    masked = of;
    begin(rng, opens_with_start);
    for (i = 0; i < calls; i++)
        if (i == 0 ? opens_with_start : rng_once_in(rng, one_in))
            start_all();
        else
            cycle_all();
    for (i = 0; i < SORTS; i++) {
        disturb(&seconds[i], REFUSED_ONE_IN);
        runs_note_pair(masked, i, &first, &seconds[i], met[i]);
    }
}
