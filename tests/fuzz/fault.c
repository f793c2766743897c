/* Prints what is wrong with the library, and aborts.
   Assumes that standard output is read by a person and by tests/fuzz/run. */

#include "fault.h"

#include <stdarg.h>
#include <stdio.h>
#include <stdlib.h>

static unsigned long at_input;

void fault_at_input(unsigned long number)
{
    at_input = number;
}

void fault_begins(void)
{
    printf("\nFAULT at input %lu: ", at_input);
}

void fault(const char *operation, const char *format, ...)
{
    va_list arguments;

    fault_begins();
    printf("%s: ", operation);
    va_start(arguments, format);
    vprintf(format, arguments);
    va_end(arguments);
    printf("\n");
    fflush(stdout);
    abort();
}
