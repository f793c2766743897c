/* Every operation on the file of one input.
   Assumes an input of at most INPUT_ROOM bytes. */

#ifndef EACH_H
#define EACH_H

#include "../harness/netlist.h"
#include "control.h"

/* An input: its file, once for each that an operation may take, and how it is
   handed over. Then whether check accepts it, and how many records it has; of
   a refused one, that is what lists go by. */
struct subject {
    struct file *files;
    const struct control *control;
    int accepted;
    uint32_t count;
};

/* Tries all that are described, and fills in what became of the file. */
void try_each(struct subject *subject);

#endif
