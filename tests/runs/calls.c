/* Makes the calls of a run, which must be answered as they are meant.
   Assumes that single calls are judged elsewhere, beside the model. */

#include "calls.h"

#include "../../include/pcn.h"
#include "../harness/operations.h"
#include "../harness/trial.h"

const char *const sort_names[SORTS] = {
    "same file", "trimmed file", "same file, scrambled",
    "trimmed file, scrambled"
};

static void note_trimmed(struct masked *masked)
{
    const struct netlist *net = &masked->net;
    uint32_t i;

    masked->registers = masked->cut = 0;
    for (i = 0; i < net->count; i++) {
        masked->registers += net->records[i].kind == KIND_REGISTER;
        masked->cut += read_record(masked->trimmed.bytes, i).keep
                    != net->records[i].keep;
    }
}

/* In one step, which finds the smallest masks. */
static void trim_at_once(struct masked *masked)
{
    struct file *file = &masked->file, *trimmed = &masked->trimmed;

    netlist_write(&masked->net, file);
    trimmed->length = file->length;
    demand_answer(pcn_trim(file->bytes, file->length,
                           (uint8_t *)masked->smallest,
                           8 * (size_t)masked->net.count, trimmed->bytes,
                           trimmed->length) >> 63, 0);
}

void trim_netlist(struct masked *masked)
{
    trim_at_once(masked);
    memcpy(masked->masks, masked->smallest, sizeof masked->masks);
    masked->by_list = 0;
    note_trimmed(masked);
}

void trim_netlist_by_list(struct masked *masked)
{
    struct file *file = &masked->file, *trimmed = &masked->trimmed;

    trim_at_once(masked);
    demand_answer(pcn_trim_by(file->bytes, file->length, masked->masks,
                              masked->net.count, trimmed->bytes,
                              trimmed->length) >> 63, 0);
    masked->by_list = 1;
    note_trimmed(masked);
}

uint64_t *run_board(const struct run *run)
{
    return words_of(&run->lent, BOARD);
}

const uint64_t *run_values(const struct run *run)
{
    return words_of(&run->lent, NEXT);
}

void run_begin(struct run *run, struct masked *masked, unsigned sort,
               struct rng rng)
{
    struct file *file = sort & TRIMMED ? &masked->trimmed : &masked->file;
    size_t length = 8 * (size_t)masked->net.count;

    memset(run, 0, offsetof(struct run, lists));
    run->net = run->scrambler.net = &masked->net;
    run->rng = rng;
    run->lent.of[0].bytes = file->bytes;
    run->lent.of[0].length = file->length;
    run->lent.of[BOARD].bytes = (uint8_t *)run->lists[0];
    run->lent.of[NEXT].bytes = (uint8_t *)run->lists[1];
    run->lent.of[BOARD].length = length;
    rng_fill(&run->rng, run->lent.of[BOARD].bytes, length);
    rng_fill(&run->rng, run->lent.of[NEXT].bytes, 2 * length + 8);
    put_words(run_board(run), &run->rng, run->net, KIND_REGISTER);
    run->scrambler.masks = masked->masks;
    run->scrambler.rng = rng_for(rng_word(&run->rng), 0);
    run->change = sort & SCRAMBLED ? scramble : NULL;
    run->context = &run->scrambler;
}

static void call_run(struct run *run, const struct operation *operation,
                     uint64_t right)
{
    const struct lent *lent = &run->lent;

    if (operation == &cycle_operation && run->change != NULL)
        demand_answer(model_changed_cycle(BYTES_OF(lent, 0),
                                          WORDS_OF(lent, BOARD),
                                          WORDS_OF(lent, NEXT), run->change,
                                          run->context), right);
    else
        demand_answer(operation->library(lent), right);
}

/* So many words in the next list of the coming call: any, or those of the
   last. */
static void set_next(struct run *run, size_t words)
{
    struct argument *next = &run->lent.of[NEXT];

    next->length = 8 * words;
    if (rng_once_in(&run->rng, 2))
        rng_fill(&run->rng, next->bytes, next->length);
}

void run_start(struct run *run)
{
    call_run(run, &start_operation, 0);
}

void run_cycle(struct run *run, const uint64_t *words)
{
    uint32_t i;

    for (i = 0; i < run->net->count; i++)
        if (run->net->records[i].kind == KIND_INPUT)
            run_board(run)[i] = words[i];
    set_next(run, run->net->count);
    call_run(run, &cycle_operation, 0);
    lists_turn(&run->lent);
    run->cycles++;
}

/* The lowest record whose word is too wide, or the count. */
static uint32_t lowest_wide(const struct run *run)
{
    uint32_t i = 0;

    while (i < run->net->count
           && (!kind_is_given(run->net->records[i].kind)
               || (run_board(run)[i]
                   & ~width_mask(run->net->records[i].width)) == 0))
        i++;
    return i;
}

/* A next list with another count of words than the right one, or words at the
   inputs of which some are too wide, or both. The words put at the inputs are
   taken back half of the time: whether they stay makes no difference to the
   registers, nor to a later call. */
void run_refused(struct run *run)
{
    static uint64_t board[COUNT_LIMIT];
    uint32_t count = run->net->count;
    size_t next = rng_below(&run->rng, 2 * count + 1);
    int any = rng_once_in(&run->rng, 2);
    uint32_t i;

    memcpy(board, run_board(run), 8 * (size_t)count);
    put_words(run_board(run), &run->rng, run->net, KIND_INPUT);
    for (i = 0; any && i < count; i++)
        if (run->net->records[i].kind == KIND_INPUT)
            run_board(run)[i] ^= rng_word(&run->rng);
    i = lowest_wide(run);
    if (i < count && rng_once_in(&run->rng, 2)) {
        set_next(run, count);
        call_run(run, &cycle_operation, refused_answer(12, i));
        run->refused[run->net->records[i].kind == KIND_INPUT
                     ? BY_12 : BY_12_AT_REGISTER]++;
    } else {
        set_next(run, next < count ? next : next + 1);
        call_run(run, &cycle_operation, refused_answer(11, 0));
        run->refused[BY_11]++;
    }
    if (rng_once_in(&run->rng, 2))
        memcpy(run_board(run), board, 8 * (size_t)count);
}
