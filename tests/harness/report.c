/* Counts named tests, and facts, and prints how each test ended.
   Assumes that standard output is read by a person and by tests/run. */

#include "report.h"

#include <stdio.h>

#include "facts.h"

enum { DESCRIBED = 3, LEAST = 200 };

static const char *current;
static unsigned long failures;
static unsigned passed, failed;

void test_begin(const char *name)
{
    current = name;
    failures = 0;
}

int test_fail(void)
{
    return ++failures <= DESCRIBED;
}

void test_end(void)
{
    if (failures == 0) {
        passed++;
        printf("ok    %s\n", current);
    } else {
        failed++;
        printf("FAIL  %s (%lu times)\n", current, failures);
    }
    fflush(stdout);
}

int tests_end(void)
{
    printf("%u passed, %u failed\n", passed, failed);
    fflush(stdout);
    return passed > 0 && failed == 0;
}

void fact(struct facts *facts, const char *name, int met)
{
    facts->names[facts->many] = name;
    facts->counts[facts->many++] += met != 0;
}

void judge_facts(const char *test, const struct facts *facts)
{
    unsigned i;

    test_begin(test);
    if (facts->many == 0)
        test_fail();
    for (i = 0; i < facts->many; i++) {
        printf("      %s %lu\n", facts->names[i], facts->counts[i]);
        if (facts->counts[i] < LEAST && test_fail())
            printf("      that is too seldom\n");
    }
    test_end();
}
