/* Starts and clocks both files, and compares their outputs in record order.
   Assumes that single calls are judged elsewhere. */

#include "beside.h"

#include <inttypes.h>
#include <stdio.h>
#include <string.h>

#include "../../include/pcn.h"
#include "../harness/words.h"

static void find_places(struct places *places, const struct side *side,
                        uint8_t kind)
{
    uint32_t i;

    places->many = 0;
    for (i = 0; i < side->count; i++)
        if (kind_at(side->file, i) == kind)
            places->of[places->many++] = i;
}

static void begin_side(struct side *side, const struct file *file,
                       struct rng *rng)
{
    side->file = file->bytes;
    side->length = file->length;
    side->count = read_16(file->bytes + 6);
    side->board = 0;
    find_places(&side->pins, side, KIND_INPUT);
    find_places(&side->outputs, side, KIND_OUTPUT);
    rng_fill(rng, (uint8_t *)side->lists[0], 8 * (size_t)side->count);
    rng_fill(rng, (uint8_t *)side->lists[1], 8 * (size_t)side->count);
}

static int same_widths(const struct side *one, const struct places *ones,
                       const struct side *two, const struct places *others)
{
    uint32_t i;

    if (ones->many != others->many)
        return 0;
    for (i = 0; i < ones->many; i++)
        if (width_at(one->file, ones->of[i])
            != width_at(two->file, others->of[i]))
            return 0;
    return 1;
}

const char *beside_compact(const struct file *old, uint64_t *masks,
                           struct file *made)
{
    made->length = pcn_compact(old->bytes, old->length, masks,
                               read_16(old->bytes + 6), made->bytes,
                               old->length);
    return made->length <= old->length ? NULL
        : "refused, or longer than before";
}

const char *beside_begin(struct beside *beside, const struct file *old,
                         const struct file *made, struct rng *rng)
{
    memset(&beside->met, 0, sizeof beside->met);
    begin_side(&beside->old, old, rng);
    begin_side(&beside->made, made, rng);
    if (!same_widths(&beside->old, &beside->old.pins, &beside->made,
                     &beside->made.pins))
        return "the compacted file has other inputs";
    return same_widths(&beside->old, &beside->old.outputs, &beside->made,
                       &beside->made.outputs)
        ? NULL : "the compacted file has other outputs";
}

uint64_t *side_board(struct side *side)
{
    return side->lists[side->board];
}

int side_start(struct side *side)
{
    return pcn_start(side->file, side->length, side_board(side), side->count)
        == 0;
}

const char *beside_start(struct beside *beside)
{
    return side_start(&beside->old) && side_start(&beside->made)
        ? NULL : "a start is not accepted";
}

void draw_pins(struct side *old, struct side *made, struct rng *rng)
{
    uint32_t i;

    for (i = 0; i < old->pins.many; i++) {
        uint64_t word = given_word(rng, width_at(old->file, old->pins.of[i]));

        side_board(old)[old->pins.of[i]] = word;
        if (made != NULL)
            side_board(made)[made->pins.of[i]] = word;
    }
}

static uint64_t cycle_side(struct side *side, size_t next_words)
{
    return pcn_cycle(side->file, side->length, side_board(side), side->count,
                     side->lists[1 - side->board], next_words);
}

/* The next list holds any words before, half of the time. */
static int cycle_accepted(struct side *side, struct rng *rng)
{
    if (rng_once_in(rng, 2))
        rng_fill(rng, (uint8_t *)side->lists[1 - side->board],
                 8 * (size_t)side->count);
    if (cycle_side(side, side->count) != 0)
        return 0;
    side->board = 1 - side->board;
    return 1;
}

/* The value that an output had in the last cycle. */
static uint64_t output_value(const struct side *side, uint32_t output)
{
    return side->lists[1 - side->board][side->outputs.of[output]];
}

/* Equal outputs, the first beside the first, and so on. */
static const char *outputs_fault(struct beside *beside)
{
    static char text[200];
    uint32_t i;

    for (i = 0; i < beside->old.outputs.many; i++) {
        uint64_t one = output_value(&beside->old, i);
        uint64_t two = output_value(&beside->made, i);

        beside->met.output_not_zero |= one != 0;
        if (one == two)
            continue;
        snprintf(text, sizeof text, "output %" PRIu32 " of the compacted file"
                 " has %016" PRIx64 " instead of %016" PRIx64, i, two, one);
        return text;
    }
    return NULL;
}

const char *beside_cycle(struct beside *beside, struct rng *rng)
{
    if (!cycle_accepted(&beside->old, rng)
        || !cycle_accepted(&beside->made, rng))
        return "a cycle is not accepted";
    return outputs_fault(beside);
}

const char *beside_drawn_cycle(struct beside *beside, struct rng *rng)
{
    draw_pins(&beside->old, &beside->made, rng);
    return beside_cycle(beside, rng);
}

/* A pin whose word can be too wide, from a random one on, or the count. */
static uint32_t narrow_pin(const struct side *side, struct rng *rng)
{
    uint32_t start = rng_below(rng, side->pins.many), i;

    for (i = 0; i < side->pins.many; i++) {
        uint32_t number = side->pins.of[(start + i) % side->pins.many];

        if (width_at(side->file, number) < WIDTH_LIMIT)
            return number;
    }
    return side->count;
}

/* A cycle that must be refused: by 12 for a pin, where there is one that is
   narrow enough, half of the time. Else the next list has a word too many. */
static const char *refused_cycle(struct side *side, struct rng *rng)
{
    uint32_t pin = narrow_pin(side, rng);
    uint64_t answer;

    if (pin == side->count || rng_once_in(rng, 2)) {
        answer = cycle_side(side, (size_t)side->count + 1);
        return answer >> 32 == 0x80000000u + PCN_BAD_LIST ? NULL
            : "a next list with a word too many is not refused";
    }
    side_board(side)[pin] = (uint64_t)1 << width_at(side->file, pin);
    answer = cycle_side(side, side->count);
    return answer >> 32 == 0x80000000u + PCN_WIDE_WORD ? NULL
        : "a word that is too wide is not refused";
}

const char *beside_refused(struct beside *beside,
                           const struct chances *chances, struct rng *rng)
{
    const char *fault = NULL;

    while (fault == NULL && rng_once_in(rng, chances->refused)) {
        fault = refused_cycle(rng_once_in(rng, 2) ? &beside->old
                                                  : &beside->made, rng);
        beside->met.refused = 1;
    }
    return fault;
}

const char *beside_call(struct beside *beside, const struct chances *chances,
                        struct rng *rng)
{
    const char *fault = beside_refused(beside, chances, rng);

    if (fault != NULL)
        return fault;
    if (!rng_once_in(rng, chances->start))
        return beside_drawn_cycle(beside, rng);
    beside->met.restarted = 1;
    return beside_start(beside);
}

const char *side_call(struct side *side, const struct chances *chances,
                      struct rng *rng)
{
    const char *fault = NULL;

    while (fault == NULL && rng_once_in(rng, chances->refused))
        fault = refused_cycle(side, rng);
    if (fault != NULL)
        return fault;
    if (rng_once_in(rng, chances->start))
        return side_start(side) ? NULL : "a start is not accepted";
    draw_pins(side, NULL, rng);
    return cycle_accepted(side, rng) ? NULL : "a cycle is not accepted";
}
