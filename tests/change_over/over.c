/* Runs a file alone, changes over, and goes on with both files.
   Assumes that single calls are judged elsewhere. */

#include "over.h"

#include <string.h>

#include "../../include/pcn.h"
#include "../harness/words.h"

/* Any states within their widths. */
static void draw_states(struct side *side, struct rng *rng)
{
    uint32_t i;

    for (i = 0; i < side->count; i++)
        if (kind_at(side->file, i) == KIND_REGISTER)
            side_board(side)[i] = given_word(rng, width_at(side->file, i));
}

/* The new list is the board list of the compacted file, with room for all its
   words; the mask list has so many words. */
static uint64_t change_over(struct beside *beside, struct over *over,
                            size_t masks_words)
{
    struct side *old = &beside->old;

    return pcn_change_over(old->file, old->length, over->masks, masks_words,
                           side_board(old), old->count,
                           side_board(&beside->made), old->count);
}

/* With drawn words at the pins. */
static const char *change_accepted(struct beside *beside, struct over *over,
                                   struct rng *rng)
{
    size_t length = 8 * (size_t)beside->old.count;

    draw_pins(&beside->old, NULL, rng);
    memcpy(over->board, side_board(&beside->old), length);
    rng_fill(rng, (uint8_t *)over->masks, length);
    rng_fill(rng, (uint8_t *)side_board(&beside->made), length);
    if (change_over(beside, over, beside->old.count) != 0)
        return "a change over is not accepted";
    return memcmp(over->board, side_board(&beside->old), length) == 0 ? NULL
        : "the board list of the old file has changed";
}

/* One that is refused, into the list that the compacted file goes on with. */
static const char *change_refused(struct beside *beside, struct over *over)
{
    return change_over(beside, over, (size_t)beside->old.count + 1) >> 32
               == 0x80000000u + PCN_BAD_LIST
        ? NULL : "a mask list with a word too many is not refused";
}

/* The pins' words have gone along, and the first cycle may do with them. */
static const char *go_on(struct beside *beside, const struct course *course,
                         struct over *over, struct rng *rng)
{
    const char *fault = NULL;
    unsigned i = 0;

    if (course->together > 0 && rng_once_in(rng, 2)) {
        fault = beside_cycle(beside, rng);
        i++;
    }
    for (; i < course->together && fault == NULL; i++) {
        if (rng_once_in(rng, course->chances.refused))
            fault = change_refused(beside, over);
        if (fault == NULL)
            fault = beside_call(beside, &course->chances, rng);
    }
    return fault;
}

const char *run_over(struct beside *beside, const struct course *course,
                     struct over *over, struct rng *rng)
{
    const char *fault = NULL;
    unsigned i;

    draw_states(&beside->old, rng);
    if (rng_once_in(rng, 2) && !side_start(&beside->old))
        fault = "a start is not accepted";
    for (i = 0; i < course->alone && fault == NULL; i++)
        fault = side_call(&beside->old, &course->chances, rng);
    if (fault == NULL)
        fault = change_accepted(beside, over, rng);
    return fault != NULL ? fault : go_on(beside, course, over, rng);
}
