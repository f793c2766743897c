/* The end of a fuzz run that has found something.
   Assumes that libFuzzer saves the input when the process aborts. */

#ifndef FAULT_H
#define FAULT_H

/* Says what is wrong, as printf does, and aborts. */
void fault(const char *operation, const char *format, ...);

/* Begins a line that says what is wrong. */
void fault_begins(void);

/* The input that is tried, counted from 1, is told beside a fault. */
void fault_at_input(unsigned long number);

#endif
