/* Shifts ask exactly for the bits that can change what is kept of them.
   Assumes widths at which all words and all D can be gone through. */

#include "../harness/report.h"
#include "exact.h"
#include "parts.h"

/* An input, a shift of it, and an output of all its bits. What the shift keeps
   is its D. */
static void try_shift(uint8_t kind, unsigned width, unsigned k)
{
    static struct netlist net;
    uint32_t shift;

    netlist_clear(&net);
    netlist_input(&net, (uint8_t)width);
    shift = netlist_add(&net, kind, (uint8_t)width, SOURCE, 0, 0, k);
    netlist_output(&net, shift, width_mask(width));
    try_every_demand(&net);
}

void masks_moved(void)
{
    static const char *const names[] = {
        "every left shift up to 8 bits asks for what can change its D",
        "every right shift up to 8 bits asks for what can change its D",
        "every arithmetic shift up to 8 bits asks for what can change its D"
    };
    unsigned kind, width, k;

    for (kind = KIND_LEFT_SHIFT; kind_shifts((uint8_t)kind); kind++) {
        test_begin(names[kind - KIND_LEFT_SHIFT]);
        for (width = 1; width <= MOST_WIDTH; width++)
            for (k = 0; k < width; k++)
                try_shift((uint8_t)kind, width, k);
        test_end();
    }
}
