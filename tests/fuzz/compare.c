/* Has the harness compare library and model, and ends the process after it.
   Assumes that the harness describes a difference right after test_fail. */

#include "compare.h"

#include <stdio.h>
#include <stdlib.h>

#include "../harness/report.h"
#include "../harness/trial.h"
#include "fault.h"

static int noted;

/* This one stands in for that of the named tests. */
int test_fail(void)
{
    noted = 1;
    fault_begins();
    return 1;
}

/* The trial leaves the memory as it was, so that a further call is needed. */
uint64_t compared(const struct operation *operation, const struct lent *lent,
                  const struct placing *front)
{
    struct placing placings[2] = { { AT_END, { 0 } } };
    uint64_t answer;

    placings[1] = *front;
    answer = try_placings(operation, lent, placings, 2);
    if (noted) {
        fflush(stdout);
        abort();
    }
    if (operation->library(lent) != answer)
        fault(operation->name, "a further call has another answer");
    return answer;
}
