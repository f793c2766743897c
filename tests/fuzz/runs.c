/* Starts and clocks a design and the trimmed file, and compares their values.
   Assumes masks that are right: they are compared before. */

#include "runs.h"

#include <inttypes.h>
#include <string.h>

#include "../../include/pcn.h"
#include "../harness/lists.h"
#include "../harness/operations.h"
#include "../harness/words.h"
#include "../runs/scramble.h"
#include "compare.h"
#include "fault.h"
#include "seen.h"

enum { BOARD_FILL = 200, NEXT_FILL = 300, MASK_FILL = 400 };

enum { BOARD_LENGTH = 2, NEXT_LENGTH = 3 };

enum { ANY_WORDS = 5 };

typedef uint64_t list[LENT_ROOM / 8];

/* A run: its file, its board list, and the two lists that a call is lent. */
struct run {
    uint8_t *file;
    list board;
    list lent;
    list next;
};

static const struct subject *design;
static list masks;
static uint8_t trimmed[INPUT_ROOM];
static struct run first, second;

static size_t list_length(void)
{
    return 8 * (size_t)design->count;
}

static const uint8_t *record_of(uint32_t number)
{
    return record_at(design->files->bytes, number);
}

/* A word for an input or a register, in one of several styles. */
static uint64_t draw_word(struct rng *rng, unsigned style, unsigned width)
{
    switch (style) {
    case 0:
        return width_mask(width);
    case 1:
        return 0;
    case 2:
        return 1;
    case 3:
        return (uint64_t)1 << (width - 1);
    default:
        return given_word(rng, width);
    }
}

/* Words with the same cared bits for the second run. A bit at the width or
   above stays, so that both runs are refused or neither is. */
static void put_both(struct rng *rng, uint32_t number, uint64_t word,
                     uint64_t *one, uint64_t *two)
{
    unsigned width = record_of(number)[1];
    uint64_t wide = word & ~width_mask(width);

    one[number] = word;
    two[number] = wide | alike(rng, word & ~wide, masks[number], width);
}

/* A list that meets the rules in place of the smallest masks, and the file
   that is trimmed by it. */
static void trim_by_list(const struct file *file)
{
    struct rng rng = rng_for(design->control->seed, MASK_FILL);

    draw_list(&rng, file->bytes, masks,
              (enum list_sort)rng_below(&rng, LIST_SORTS));
    if (PCN_REFUSED(pcn_trim_by(file->bytes, file->length, masks,
                                design->count, trimmed, file->length)))
        fault("trim_by", "a list that meets the rules is refused");
}

/* The masks and the trimmed file, which the second run is of; of every second
   seed they are by a list. */
static void trim_design(void)
{
    struct file *file = design->files;

    first.file = file->bytes;
    second.file = trimmed;
    if (!design->accepted)
        return;
    pcn_trim(file->bytes, file->length, (uint8_t *)masks, list_length(),
             trimmed, file->length);
    seen_masks(file->bytes, masks,
               memcmp(trimmed, file->bytes, file->length) != 0);
    if (design->control->seed % 2 == 1)
        trim_by_list(file);
}

/* The first board lists: equal in the cared bits of the registers, and any
   words elsewhere. */
static void begin(void)
{
    const struct control *control = design->control;
    struct rng rng = rng_for(control->seed, CALLS);
    uint32_t i;

    fill_list(control, BOARD_FILL, first.board, list_length());
    rng_fill(&rng, (uint8_t *)second.board, list_length());
    for (i = 0; design->accepted && i < design->count; i++) {
        uint64_t word = first.board[i];

        if (record_of(i)[0] != KIND_REGISTER)
            continue;
        if (!control->any_board)
            word = draw_word(&rng, ANY_WORDS, record_of(i)[1]);
        put_both(&rng, i, word, first.board, second.board);
    }
}

/* The input words of a cycle, in the lists that the two calls are lent. */
static void put_inputs(struct rng *rng, const struct called *called)
{
    uint32_t i;

    for (i = 0; i < design->count; i++)
        if (record_of(i)[0] == KIND_INPUT)
            put_both(rng, i, draw_word(rng, called->style, record_of(i)[1]),
                     first.lent, second.lent);
}

/* A bit at the width or above in two words of each list. It matters where the
   record is an input or a register, and such a call is refused; the run's own
   board list is another one, and stays. */
static void put_wide(struct rng *rng)
{
    unsigned i;

    for (i = 0; i < 2 && design->count > 0; i++) {
        uint32_t number = rng_below(rng, design->count);
        unsigned width = record_of(number)[1];
        uint64_t bit;

        if (width == 64)
            continue;
        bit = (uint64_t)1 << rng_between(rng, width, 63);
        first.lent[number] |= bit;
        second.lent[number] |= bit;
    }
}

/* The lists of a call: the board list, with words put into it for a cycle. A
   list that is too long goes on with what lists are filled with. */
static void fill_lent(unsigned number, size_t board_length)
{
    const struct called *called = &design->control->calls[number];
    size_t right = list_length();
    struct rng rng = rng_for(design->control->seed, number);

    fill_list(design->control, BOARD_FILL + number, first.lent,
              board_length > right ? board_length : right);
    memcpy(second.lent, first.lent, board_length);
    memcpy(first.lent, first.board, right);
    memcpy(second.lent, second.board, right);
    if (!design->accepted || called->what != A_CYCLE)
        return;
    put_inputs(&rng, called);
    if (called->too_wide)
        put_wide(&rng);
}

/* Makes a call. If it is accepted, the run goes on with the board list that
   it leaves: the one of a start, the next list of a cycle. */
static uint64_t make_call(struct run *run, const struct operation *operation,
                          unsigned number, const size_t *lengths)
{
    struct lent lent = { {
        { run->file, design->files->length, 0 },
        { (uint8_t *)run->lent, lengths[0], 0 },
        { (uint8_t *)run->next, lengths[1], 0 }
    } };
    uint64_t answer;

    fill_list(design->control, NEXT_FILL + number, run->next, lengths[1]);
    answer = compared(operation, &lent, &design->control->front);
    if (PCN_REFUSED(answer)) {
        if (design->accepted)
            seen_refused(run->file, answer);
        return answer;
    }
    memcpy(run->board, operation == &start_operation ? run->lent : run->next,
           lengths[0]);
    return answer;
}

/* The claim about two runs, for the cycle that both have just made. */
static void compare_values(unsigned number)
{
    uint32_t i;

    for (i = 0; i < design->count; i++) {
        uint64_t one = first.lent[i], two = second.lent[i];
        int is_output = record_of(i)[0] == KIND_OUTPUT;

        if (((one ^ two) & masks[i]) != 0 || (is_output && one != two))
            fault("two runs", "call %u: signal %" PRIu32 " has %016" PRIx64
                  " in the trimmed run, %016" PRIx64 " in the first, mask %016"
                  PRIx64, number, i, two, one, masks[i]);
    }
}

static void make_calls(unsigned number)
{
    const struct control *control = design->control;
    const struct called *called = &control->calls[number];
    const struct operation *operation
        = called->what == A_START ? &start_operation : &cycle_operation;
    size_t lengths[2];
    uint64_t answer;

    lengths[0] = lengths[1] = list_length();
    if (called->lengths_chosen) {
        lengths[0] = chosen_length(control, BOARD_LENGTH, lengths[0], 1);
        lengths[1] = chosen_length(control, NEXT_LENGTH, lengths[1], 1);
    }
    fill_lent(number, lengths[0]);
    answer = make_call(&first, operation, number, lengths);
    if (!design->accepted)
        return;
    if (make_call(&second, operation, number, lengths) != answer)
        fault("two runs", "call %u has another answer for the trimmed file",
              number);
    if (PCN_REFUSED(answer) || operation == &start_operation)
        return;
    compare_values(number);
    seen_values(design->files->bytes, first.lent,
                memcmp(first.lent, second.lent, lengths[0]) != 0);
}

void try_runs(const struct subject *subject)
{
    unsigned i;

    design = subject;
    trim_design();
    begin();
    for (i = 0; i < CALLS; i++)
        if (subject->control->calls[i].what != NO_CALL)
            make_calls(i);
}
