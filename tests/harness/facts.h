/* Facts that a test meets or not, counted by name.
   Assumes that they are noted in the same order, round after round. */

#ifndef FACTS_H
#define FACTS_H

enum { MOST_FACTS = 64 };

struct facts {
    unsigned many; /* noted in this round; 0 begins another one */
    const char *names[MOST_FACTS];
    unsigned long counts[MOST_FACTS];
};

void fact(struct facts *facts, const char *name, int met);

/* Prints the counts as a named test, which fails when a fact was met too
   seldom to call it tested. */
void judge_facts(const char *test, const struct facts *facts);

#endif
