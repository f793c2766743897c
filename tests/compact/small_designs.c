/* Makes small designs from each choice of kinds, operands and keep words.
   Assumes that the library refuses those that read an output. */

#include "small_designs.h"

#include <stdio.h>

#include "../../include/pcn.h"
#include "../harness/report.h"

enum { LEAST_DESIGNS = 100000 };

/* And, beside a constant, is the kind that leaves an operand named of which no
   bit is cared for; so do keep words that are 0. */
static const uint8_t kinds[] = { KIND_INPUT, KIND_CONSTANT, KIND_REGISTER,
                                 KIND_OUTPUT, KIND_AND, KIND_MUX };

static struct netlist net;
static unsigned long designs;
static void (*try_file)(struct file *file);

static void try_design(void)
{
    static struct file file;

    netlist_write(&net, &file);
    if (PCN_REFUSED(pcn_check(file.bytes, file.length)))
        return;
    designs++;
    try_file(&file);
}

static void extend(uint32_t count);

/* The record with each choice of operands, kept or not, and then the rest. A
   constant and a reset state are 1. Designs that read an output come too, and
   are refused. */
static void extend_by(uint32_t count, uint8_t kind)
{
    uint32_t number = net.count, limit = kind == KIND_REGISTER ? count : number;
    uint32_t choices = 1, i;
    unsigned used = kind_operands(kind), j;

    for (j = 0; j < used; j++)
        choices *= limit;
    for (i = 0; i < 2 * choices; i++) {
        uint32_t rest = i / 2, operand[3] = { 0, 0, 0 };

        for (j = 0; j < used; j++, rest /= limit)
            operand[j] = rest % limit;
        netlist_add(&net, kind, 1, operand[0], operand[1], operand[2],
                    kind == KIND_CONSTANT || kind == KIND_REGISTER);
        net.records[number].keep = i % 2;
        extend(count);
        net.count = number;
        net.header_count = (uint16_t)number;
    }
}

static void extend(uint32_t count)
{
    unsigned i;

    if (net.count == count) {
        try_design();
        return;
    }
    for (i = 0; i < sizeof kinds; i++)
        extend_by(count, kinds[i]);
}

void each_small_design(void (*attempt)(struct file *file))
{
    uint32_t count;

    designs = 0;
    try_file = attempt;
    test_begin("small: every design of up to four records of one bit");
    for (count = 0; count <= SMALL_MOST; count++) {
        netlist_clear(&net);
        extend(count);
    }
    printf("      %lu designs\n", designs);
    if (designs < LEAST_DESIGNS)
        test_fail();
    test_end();
}
