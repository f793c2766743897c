/* Named styles of random designs, each of which strains other care rules.
   Assumes designs.h for what the numbers mean. */

#ifndef STYLES_H
#define STYLES_H

#include "designs.h"

/* The order of the table. */
enum {
    STYLE_FEEDBACK,
    STYLE_COMBINATIONAL,
    STYLE_WIRES,
    STYLE_ARITHMETIC,
    STYLE_CHOICES,
    STYLE_DEEP,
    STYLE_CUT,
    STYLE_UNREAD,
    STYLES
};

/* Behind them stands one with all kinds alike. */
extern const struct style styles[STYLES + 1];

/* Design number i: each style in turn, and then all kinds alike. */
void design_by_turn(struct rng *rng, struct netlist *net, uint32_t count,
                    unsigned long i);

#endif
