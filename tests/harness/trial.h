/* One call of an operation, to the library and to the model.
   Assumes that a named test has begun, which notes every difference. */

#ifndef TRIAL_H
#define TRIAL_H

#include "guard.h"
#include "operation.h"

/* The count of calls tried so far, and of those of an operation in which the
   model gave this refusal, or 0 for the accepted ones. */
unsigned long trials_made(void);
unsigned long trials_ended(const struct operation *operation,
                           unsigned refusal);

/* Calls the library twice, with all memory against forbidden pages behind it
   and then in front of it, files and what is only read being read-only, and
   the model once, on exact heap blocks. The answers and every byte must be
   equal, a refused call must change nothing, and the operation's judge must
   find nothing wrong. The memory lent then holds what the library left, and
   the library's answer is given. The model's answer is counted. */
uint64_t try_call(const struct operation *operation,
                  const struct lent *lent);

/* The same, with the library called once at each of these placings, and the
   memory lent stays as it is. */
uint64_t try_placings(const struct operation *operation,
                      const struct lent *lent,
                      const struct placing *placings, size_t many);

/* Compares a call that a test has made of the library itself: what was lent
   before, what it left, also in files and lists that are only read, and its
   answer. */
void judge_call(const struct operation *operation, const struct lent *before,
                const struct lent *after, uint64_t answer);

/* As try_call, and both must give this answer. */
void expect_call(const struct operation *operation, const struct lent *lent,
                 uint64_t answer);
void expect_refused(const struct operation *operation,
                    const struct lent *lent, unsigned refusal,
                    uint32_t record);

/* The answer of a refused call. */
uint64_t refused_answer(unsigned refusal, uint32_t record);

/* Notes a failure of the current test unless the answer is the right one. */
void demand_answer(uint64_t answer, uint64_t right);

/* Notes a failure unless the list begins with these words. */
void demand_words(const char *name, const struct argument *list,
                  const uint64_t *words, size_t count);

#endif
