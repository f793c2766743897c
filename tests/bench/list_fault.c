/* The lowest record at fault in a mask list that is not accepted.
   Assumes an accepted file, and a list with a word for each of its records. */

#include "plain.h"

/* The list, and the lowest record at fault so far. */
typedef struct {
    const uint64_t *masks;
    uint32_t lowest;
} asked_list;

/* Bits that the list lacks, or has beyond a width, are a fault of this
   record. */
static inline uint64_t note_fault(asked_list *list, uint32_t number,
                                  uint64_t bits)
{
    if (bits != 0 && number < list->lowest)
        list->lowest = number;
    return bits;
}

static inline uint64_t ask(asked_list *list, uint32_t number, uint64_t bits)
{
    return note_fault(list, number, bits & ~list->masks[number]);
}

#include "plain_asks.h"

uint32_t list_fault(const uint8_t *file, uint32_t count,
                    const uint64_t *masks)
{
    asked_list list = { masks, count };
    uint32_t i;

    for (i = 0; i < count; i++) {
        const uint8_t *p = record_at(file, i);
        uint64_t full = width_mask(p[1]), d = masks[i] & load_64(p + 16);

        note_fault(&list, i, masks[i] & ~full);
        if (p[0] == KIND_OUTPUT)
            ask(&list, i, full);
        if (d != 0)
            ask_operands(file, p, d, &list);
    }
    return list.lowest;
}
