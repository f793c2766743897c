/* Calls each operation in rounds of at least a few milliseconds.
   Assumes a monotonic clock (POSIX). */

#define _POSIX_C_SOURCE 199309L

#include "timing.h"

#include <time.h>

/* Keeps the answers in use, so that no call can be left out. */
static volatile uint64_t sink;

static double microseconds(void)
{
    struct timespec now;

    clock_gettime(CLOCK_MONOTONIC, &now);
    return (double)now.tv_sec * 1e6 + (double)now.tv_nsec / 1e3;
}

/* So many turns over all files. */
static double time_turns(function *call, const struct workload *work,
                         unsigned long turns)
{
    double start = microseconds();
    unsigned long i;
    uint32_t j;

    for (i = 0; i < turns; i++)
        for (j = 0; j < work->files; j++) {
            if (work->renew != NULL)
                work->renew(&work->lent[j]);
            sink = call(&work->lent[j]);
        }
    return microseconds() - start;
}

/* Enough turns for one round; they also warm the cache. */
static unsigned long turns_per_round(function *call,
                                     const struct workload *work)
{
    unsigned long turns = 1;

    while (time_turns(call, work, turns) < ROUND_MICROSECONDS)
        turns *= 2;
    return turns;
}

static void keep_better(double *best, function *call,
                        const struct workload *work, unsigned long turns)
{
    double calls = (double)turns * work->files;
    double one = time_turns(call, work, turns) / calls;

    if (one < *best)
        *best = one;
}

/* Whether there is one more round, after so many and so much time. */
static int goes_on(int made, double spent)
{
    return made < LEAST_ROUNDS
        || (made < ROUNDS && spent < ROW_MICROSECONDS);
}

/* The two take turns, so that a change of clock speed meets both, and have the
   same number of rounds. */
struct times time_both(function *library, function *plain,
                       const struct workload *work)
{
    unsigned long library_turns = turns_per_round(library, work);
    unsigned long plain_turns = turns_per_round(plain, work);
    struct times best = { 1e300, 1e300 };
    double start = microseconds();
    int i;

    for (i = 0; goes_on(i, microseconds() - start); i++) {
        keep_better(&best.library, library, work, library_turns);
        keep_better(&best.plain, plain, work, plain_turns);
    }
    return best;
}
