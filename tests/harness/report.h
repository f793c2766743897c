/* Named tests: begin one, note what fails in it, end it, and count them.
   Assumes one test at a time in one thread. */

#ifndef REPORT_H
#define REPORT_H

void test_begin(const char *name);

/* Notes a failure of the current test. True for the first few, which the
   caller may describe at length; the others are only counted. */
int test_fail(void);

void test_end(void);

/* Prints `N passed, M failed`. True when tests ran and none failed. */
int tests_end(void);

#endif
