/* Reads the last bytes of an input, chooses lengths by them, fills lists.
   Assumes that most lists should have the right length. */

#include "control.h"

#include <string.h>

#include "../harness/rng.h"

enum { LONGEST = 8 * 2050, PLACED = 3 };

static struct called read_call(uint8_t byte)
{
    static const enum what whats[8] = {
        NO_CALL, A_START, A_CYCLE, A_CYCLE, A_CYCLE, A_CYCLE, A_CYCLE, A_CYCLE
    };
    struct called called;

    called.what = whats[byte & 7];
    called.too_wide = (byte >> 3 & 3) == 2;
    called.lengths_chosen = (byte >> 3 & 3) == 3;
    called.style = byte >> 5;
    return called;
}

/* Four bits: the low half of each byte goes before its high half. */
static unsigned half_byte(const uint8_t *bytes, unsigned number)
{
    return bytes[number / 2] >> 4 * (number % 2) & 15;
}

size_t control_read(struct control *control, const uint8_t *input,
                    size_t size)
{
    size_t there = size < CONTROL_BYTES ? size : CONTROL_BYTES;
    uint8_t bytes[CONTROL_BYTES] = { 0 };
    unsigned i;

    memcpy(bytes, input + size - there, there);
    for (i = 0; i < LENGTHS; i++)
        control->lengths[i] = half_byte(bytes, i);
    control->front.edge = AT_FRONT;
    for (i = 0; i < PARAMETERS; i++)
        control->front.away[i] = half_byte(bytes + 2, i % PLACED);
    control->fill = bytes[3] >> 4 & 7;
    control->any_board = bytes[3] >> 7;
    control->seed = (uint32_t)bytes[4] | (uint32_t)bytes[5] << 8
                  | (uint32_t)bytes[6] << 16 | (uint32_t)bytes[7] << 24;
    for (i = 0; i < CALLS; i++)
        control->calls[i] = read_call(bytes[8 + i]);
    return size - there;
}

static size_t any_length(const struct control *control, unsigned choice,
                         size_t right)
{
    switch (choice) {
    case 8:
        return 0;
    case 9:
        return right == 0 ? 1 : right - 1;
    case 10:
        return right + 1;
    case 11:
        return right < 8 ? 7 : right - 8;
    case 12:
        return right + 8;
    case 13:
        return right / 8;
    case 14:
        return 2 * right;
    case 15:
        return control->seed % LONGEST;
    default:
        return right;
    }
}

/* Whole words are found away from the right length, so that a wrong one stays
   wrong. */
size_t chosen_length(const struct control *control, unsigned number,
                     size_t right, int in_words)
{
    size_t length = any_length(control, control->lengths[number % LENGTHS],
                               right);

    if (in_words)
        return (length < right ? length : length + 7) / 8 * 8;
    return length;
}

void fill_list(const struct control *control, unsigned number, void *list,
               size_t length)
{
    static const uint8_t bytes[4] = { 0x00, 0xff, 0xa5, 0x01 };
    struct rng rng = rng_for(control->seed, number);

    if (control->fill < 4)
        memset(list, bytes[control->fill], length);
    else
        rng_fill(&rng, list, length);
}
