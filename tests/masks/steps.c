/* Puts the steps of a chain or a ring in order, and tries their masks.
   Assumes that the caller knows the masks. */

#include "steps.h"

#include <stdio.h>

#include "../harness/known.h"
#include "../harness/operations.h"
#include "../harness/report.h"
#include "../harness/trial.h"

enum { SEED = 40, FEW = 20, NAME_ROOM = 100 };

/* Drawn, a step changes places with one before it, or stays. */
void order_steps(enum order order, uint32_t many, uint32_t *places)
{
    struct rng rng = rng_for(SEED, many);
    uint32_t i, other;

    for (i = 0; i < many; i++) {
        places[i] = i;
        if (order == BACKWARD)
            places[i] = many - 1 - i;
        if (order == FROM_BOTH_ENDS)
            places[i] = i % 2 == 0 ? i / 2 : many - 1 - i / 2;
        if (order == DRAWN) {
            other = rng_below(&rng, i + 1);
            places[i] = places[other];
            places[other] = i;
        }
    }
}

void begin_steps(const char *name, enum order order)
{
    static const char *const names[ORDERS] = {
        "forward", "backward", "from both ends", "in an order that is drawn"
    };
    static char text[NAME_ROOM];

    snprintf(text, sizeof text, "%s, %s", name, names[order]);
    test_begin(text);
}

int is_stop(const struct netlist *net, uint32_t number)
{
    uint8_t kind = net->records[number].kind;

    return kind != KIND_INPUT && kind != KIND_OUTPUT
        && (net->count <= FEW || number < 4 || number + 4 > net->count
            || (number + 1) % 64 < 3);
}

uint64_t try_steps(const struct netlist *net, const uint64_t *masks)
{
    struct operation operation = masks_operation;
    struct known known;

    operation.judge = NULL;
    known = known_call(&operation, net);
    demand_answer(known.answer >> 63, 0);
    demand_words("mask list", &known.lent.of[1], masks, net->count);
    return known.answer;
}
