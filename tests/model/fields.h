/* Which fields of a record each kind uses: operands a, b and c, and k.
   Assumes a kind of 01; for any other the answer means nothing. */

#ifndef MODEL_FIELDS_H
#define MODEL_FIELDS_H

#include "record.h"

enum { USES_A = 1, USES_B = 2, USES_C = 4, USES_K = 8 };

static inline unsigned fields_used(uint8_t kind)
{
    switch (kind) {
    case KIND_INPUT:
        return 0;
    case KIND_CONSTANT:
        return USES_K;
    case KIND_REGISTER:
    case KIND_EXTRACT:
    case KIND_LEFT_SHIFT:
    case KIND_RIGHT_SHIFT:
    case KIND_ARITHMETIC_SHIFT:
        return USES_A | USES_K;
    case KIND_OUTPUT:
        return USES_A;
    case KIND_MUX:
        return USES_A | USES_B | USES_C;
    default:
        return USES_A | USES_B;
    }
}

#endif
