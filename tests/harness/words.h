/* Words within widths: for pins and states before a cycle.
   Assumes a list with a word for each record of the netlist. */

#ifndef WORDS_H
#define WORDS_H

#include "operation.h"

/* The lists of a cycle; a start has the board list at the same place. */
enum { BOARD = 1, NEXT = 2 };

/* The lists of a change over, behind the mask list. */
enum { OLD_BOARD = 2, NEW_BOARD = 3 };

/* The words of a list that was lent. */
static inline uint64_t *words_of(const struct lent *lent, unsigned parameter)
{
    return (uint64_t *)(void *)lent->of[parameter].bytes;
}

/* The two lists change places: the states that follow become the board. */
void lists_turn(struct lent *lent);

/* Whether a cycle takes the word of such a record from the board list. */
int kind_is_given(uint8_t kind);

/* A word within the width: random, or of a form that brings out mistakes. */
uint64_t given_word(struct rng *rng, unsigned width);

/* Such a word at every record of this kind. */
void put_words(uint64_t *list, struct rng *rng, const struct netlist *net,
               uint8_t kind);

/* A board list that a cycle or a change over accepts: words within the widths
   at inputs and registers, the others as they are. */
void prepare_board(struct rng *rng, const struct netlist *nets,
                   struct lent *lent);
void prepare_old_board(struct rng *rng, const struct netlist *nets,
                       struct lent *lent);

#endif
