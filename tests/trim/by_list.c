/* Lends a design, a list of masks and a destination, and tries the call.
   Assumes lists with a word for each record; what they hold may be anything. */

#include "by_list.h"

#include <inttypes.h>
#include <stdio.h>
#include <string.h>

#include "../harness/lend.h"
#include "../harness/operations.h"
#include "../harness/report.h"
#include "../harness/trial.h"
#include "../harness/words.h"
#include "../masks/closed.h"

struct known list_call(const struct netlist *net, const uint64_t *list)
{
    static struct file file;
    struct rng rng = rng_for(3, trials_made());
    struct known known;

    netlist_write(net, &file);
    known.lent = lend_files(&trim_by_operation, &rng, &file);
    memcpy(words_of(&known.lent, 1), list, 8 * (size_t)net->count);
    known.answer = try_call(&trim_by_operation, &known.lent);
    return known;
}

struct known expect_accepted(const struct netlist *net, const uint64_t *list)
{
    struct known known = list_call(net, list);

    demand_answer(known.answer, tally_of(known.lent.of[0].bytes, list));
    return known;
}

void expect_faulty(const struct netlist *net, const uint64_t *list,
                   uint32_t record)
{
    demand_answer(list_call(net, list).answer, refused_answer(14, record));
}

void demand_keeps(const struct known *known, const uint64_t *keeps,
                  uint32_t count)
{
    uint32_t i;

    demand_answer(known->answer >> 63, 0);
    for (i = 0; i < count; i++) {
        uint64_t keep = read_record(known->lent.of[2].bytes, i).keep;

        if (keep != keeps[i] && test_fail())
            printf("      keep word %" PRIu32 " is %016" PRIx64
                   " instead of %016" PRIx64 "\n", i, keep, keeps[i]);
    }
}
