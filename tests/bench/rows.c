/* Compares the results of both sides, then times them and prints the rows.
   Assumes lists that are no longer than those of the workloads. */

#include "rows.h"

#include <inttypes.h>
#include <stdio.h>
#include <string.h>

#include "counted.h"
#include "timing.h"

/* What was in the memory lent for a design, its file included. */
struct held {
    uint8_t bytes[PARAMETERS][LONGEST_FILE];
};

static void hold(struct held *held, const struct lent *lent)
{
    unsigned i;

    for (i = 0; i < PARAMETERS; i++)
        if (lent->of[i].length != 0)
            memcpy(held->bytes[i], lent->of[i].bytes, lent->of[i].length);
}

static void put_back(const struct held *held, const struct lent *lent)
{
    unsigned i;

    for (i = 0; i < PARAMETERS; i++)
        if (lent->of[i].length != 0)
            memcpy(lent->of[i].bytes, held->bytes[i], lent->of[i].length);
}

static int still_held(const struct held *held, const struct lent *lent)
{
    unsigned i;

    for (i = 0; i < PARAMETERS; i++)
        if (lent->of[i].length != 0
            && memcmp(lent->of[i].bytes, held->bytes[i], lent->of[i].length))
            return 0;
    return 1;
}

/* Both must accept every design with the same answer, and leave the same
   bytes. The counts rely on the order: a call of the library and then one of
   plain C, for each design. */
static int same_results(function *library, function *plain,
                        const struct workload *work)
{
    static struct held before, left;
    uint32_t i;

    for (i = 0; i < work->files; i++) {
        const struct lent *lent = &work->lent[i];
        uint64_t one, two;

        hold(&before, lent);
        one = counted(library, lent);
        hold(&left, lent);
        put_back(&before, lent);
        two = counted(plain, lent);
        if (one >> 63 || one != two || !still_held(&left, lent))
            return 0;
    }
    return 1;
}

static int run_row(const struct row *row, uint32_t count, int once)
{
    static struct workload work;
    function *library = row->operation->library;

    work.operation = row->operation;
    work.renew = NULL;
    row->make(&work, count);
    if (!same_results(library, row->plain, &work)) {
        fprintf(stderr, "%s: the results differ at %" PRIu32 " records\n",
                row->name, count);
        return 0;
    }
    printf("%s\t%" PRIu32 "\t%" PRIu32, row->name, count, work.files);
    if (!once) {
        struct times times = time_both(library, row->plain, &work);

        printf("\t%.6f\t%.6f", times.library, times.plain);
    }
    printf("\n");
    return 1;
}

int run_rows(int argc, char **argv, const struct row *rows, size_t count)
{
    int once = argc == 2 && strcmp(argv[1], "--once") == 0;
    int same = 1;
    size_t i, j;

    if (argc > 1 && !once) {
        fprintf(stderr, "usage: %s [--once]\n", argv[0]);
        return 2;
    }
    printf("rounds\t%d\t%d\t%d\t%d\n", ROUNDS, ROUND_MICROSECONDS,
           LEAST_ROUNDS, ROW_MICROSECONDS);
    for (i = 0; i < count; i++)
        for (j = 0; j < ROW_COUNTS; j++)
            if (rows[i].counts[j] != 0)
                same &= run_row(&rows[i], rows[i].counts[j], once);
    return same ? 0 : 1;
}
