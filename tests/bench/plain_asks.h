/* What a record asks of its operands, for masks and for the test of a list.
   Assumes that who includes it has said before what `ask` does with bits. */

#ifndef PLAIN_ASKS_H
#define PLAIN_ASKS_H

#include "../model/record.h"
#include "load.h"

/* A record asks for these bits of the one with this number. What is given for
   all that it asks is joined. */
static inline uint64_t ask(asked_list *asked, uint32_t number, uint64_t bits);

/* The low bits of D go to b, and the rest to a. */
static inline uint64_t ask_parts(asked_list *asked, uint32_t a, uint32_t b,
                                 unsigned low, uint64_t d)
{
    return ask(asked, a, d >> low) | ask(asked, b, d & width_mask(low));
}

/* What the arithmetic shift at `p` asks: D moved up, and the top bit for the
   places that copy it. The place below these has that bit itself. */
static inline uint64_t asked_by_copies(const uint8_t *p, uint64_t d)
{
    unsigned top = p[1] - 1u;
    uint64_t copied = d >> (top - p[8]) != 0;

    return (d << p[8] & width_mask(p[1])) | copied << top;
}

/* An and or an or: beside a constant, the other operand is asked only for the
   bits that the constant leaves to it. These are its ones in an and; in an or
   they are its zeros, which all bits in `inverted` make ones. */
static inline uint64_t ask_masked(const uint8_t *file, uint32_t a, uint32_t b,
                                  uint64_t inverted, uint64_t d,
                                  asked_list *asked)
{
    const uint8_t *p = record_at(file, a), *q = record_at(file, b);
    uint64_t of_a = d, of_b = d;

    if (p[0] == KIND_CONSTANT && q[0] != KIND_CONSTANT)
        of_b &= (load_64(p + 8) & load_64(p + 16)) ^ inverted;
    if (q[0] == KIND_CONSTANT && p[0] != KIND_CONSTANT)
        of_a &= (load_64(q + 8) & load_64(q + 16)) ^ inverted;
    return ask(asked, a, of_a) | ask(asked, b, of_b);
}

/* What the record at `p` asks of its operands; D is not 0. */
static inline uint64_t ask_operands(const uint8_t *file, const uint8_t *p,
                                    uint64_t d, asked_list *asked)
{
    uint32_t a = read_16(p + 2), b = read_16(p + 4);

    switch (p[0]) {
    case KIND_INPUT:
    case KIND_CONSTANT:
        return 0;
    case KIND_REGISTER:
    case KIND_OUTPUT:
        return ask(asked, a, d);
    case KIND_EXTRACT:
        return ask(asked, a, d << p[8]);
    case KIND_CONCAT:
        return ask_parts(asked, a, b, width_at(file, b), d);
    case KIND_AND:
        return ask_masked(file, a, b, 0, d, asked);
    case KIND_OR:
        return ask_masked(file, a, b, ~(uint64_t)0, d, asked);
    case KIND_MUX:
        return ask(asked, a, 1) | ask(asked, b, d)
             | ask(asked, read_16(p + 6), d);
    case KIND_ADD:
    case KIND_SUB:
    case KIND_MUL:
        d = ~(uint64_t)0 >> __builtin_clzll(d);
        break;
    case KIND_LEFT_SHIFT:
        return ask(asked, a, d >> p[8]);
    case KIND_RIGHT_SHIFT:
        return ask(asked, a, d << p[8] & width_mask(p[1]));
    case KIND_ARITHMETIC_SHIFT:
        return ask(asked, a, asked_by_copies(p, d));
    case KIND_EQUAL:
    case KIND_BELOW:
    case KIND_SIGNED_BELOW:
        d = width_mask(width_at(file, a));
        break;
    default:
        break;
    }
    return ask(asked, a, d) | ask(asked, b, d);
}

#endif
