/* Makes the benchmark's designs, the same ones in every run.
   Assumes designs of at least a few records. */

#include "workloads.h"

#include <string.h>

#include "../harness/designs.h"
#include "../harness/lend.h"
#include "../harness/lists.h"
#include "../harness/styles.h"
#include "../harness/words.h"
#include "../model/model.h"

enum { SEED = 7, MANY_WIDTHS = 56, NOISE = 0x55, SERVICE_CYCLES = 20 };

typedef uint64_t memory[PARAMETERS][LONGEST_FILE / 8];

static struct netlist net;
static struct file files[MOST_FILES];
static memory own[MOST_FILES], shared;

/* Kinds alike but for twice the registers, with inputs in front and outputs
   at the end. */
static const struct style clocked_style = {
    { 1, 1, 2, 1, 1, 1, 1, 1, 1, 1, 1, 1, 0, 1, 1, 1, 1, 1, 1 }, 4, 2, 0,
    KEEP_MOSTLY, 0
};
static const struct style clocked_with_mul_style = {
    { 1, 1, 2, 1, 1, 1, 1, 1, 1, 1, 1, 1, 1, 1, 1, 1, 1, 1, 1 }, 4, 2, 0,
    KEEP_MOSTLY, 0
};

/* A list that is only written is the same memory for all designs; one that is
   read belongs to its design. */
static uint8_t *list_memory(enum sort sort, uint32_t file, unsigned number)
{
    int only_written = sort == WRITTEN_BYTES || sort == WRITTEN_WORDS;

    return (uint8_t *)(only_written ? shared[number] : own[file][number]);
}

/* Lends the design as one more file, with lists of the lengths that the
   operation demands, and whatever it needs to be accepted. */
static void add_file(struct workload *work, struct rng *rng)
{
    const struct operation *operation = work->operation;
    struct file *file = &files[work->files];
    struct lent *lent = &work->lent[work->files];
    unsigned i;

    netlist_write(&net, file);
    memset(lent, 0, sizeof *lent);
    lent->of[0].bytes = file->bytes;
    lent->of[0].length = file->length;
    for (i = 1; i < parameters_of(operation); i++) {
        enum sort sort = operation->parameters[i].sort;

        if (!is_memory(sort))
            continue;
        lent->of[i].bytes = list_memory(sort, work->files, i);
        lent->of[i].length = right_length(operation, lent, i);
        memset(lent->of[i].bytes, NOISE, lent->of[i].length);
    }
    if (operation->prepare != NULL)
        operation->prepare(rng, &net, lent);
    work->files++;
}

static uint32_t widths_in_use(void)
{
    uint8_t used[WIDTH_LIMIT + 1] = { 0 };
    uint32_t widths = 0;
    uint32_t i;

    for (i = 0; i < net.count; i++) {
        widths += !used[net.records[i].width];
        used[net.records[i].width] = 1;
    }
    return widths;
}

/* Several designs, so that no branch predictor learns one by heart. Those of
   fewer widths are passed by. */
static void styled(struct workload *work, uint32_t count,
                   const struct style *style, uint32_t widths)
{
    uint64_t tries = 0;

    work->files = 0;
    while (work->files < MOST_FILES) {
        struct rng rng = rng_for(SEED + tries++, count);

        if (style == NULL)
            design_make(&rng, &net, count);
        else
            design_styled(&rng, &net, count, style);
        if (widths_in_use() >= widths)
            add_file(work, &rng);
    }
}

static uint32_t many_widths(uint32_t count)
{
    return count / 4 < MANY_WIDTHS ? count / 4 : MANY_WIDTHS;
}

void all_kinds(struct workload *work, uint32_t count)
{
    styled(work, count, NULL, 0);
}

void feedback(struct workload *work, uint32_t count)
{
    styled(work, count, &styles[STYLE_FEEDBACK], 0);
}

void combinational(struct workload *work, uint32_t count)
{
    styled(work, count, &styles[STYLE_COMBINATIONAL], 0);
}

void cut_words(struct workload *work, uint32_t count)
{
    styled(work, count, &styles[STYLE_CUT], 0);
}

/* Puts such a list in the place of the one that was prepared. No number is
   drawn for it. */
static void put_lists(struct workload *work, enum list_sort sort)
{
    struct rng rng = rng_for(SEED, 0);
    uint32_t i;

    for (i = 0; i < work->files; i++)
        draw_list(&rng, work->lent[i].of[0].bytes,
                  words_of(&work->lent[i], MASK_LIST), sort);
}

void feedback_smallest(struct workload *work, uint32_t count)
{
    feedback(work, count);
    put_lists(work, SMALLEST);
}

void feedback_all_bits(struct workload *work, uint32_t count)
{
    feedback(work, count);
    put_lists(work, ALL_BITS);
}

void combinational_smallest(struct workload *work, uint32_t count)
{
    combinational(work, count);
    put_lists(work, SMALLEST);
}

void combinational_all_bits(struct workload *work, uint32_t count)
{
    combinational(work, count);
    put_lists(work, ALL_BITS);
}

/* New words at the pins. */
static void put_pins(struct rng *rng, const uint8_t *file, uint64_t *board)
{
    uint32_t count = read_16(file + 6), i;

    for (i = 0; i < count; i++)
        if (kind_at(file, i) == KIND_INPUT)
            board[i] = given_word(rng, width_at(file, i));
}

/* Puts the board lists in place that some cycles from a start lead to. */
static void put_in_service(struct workload *work)
{
    static uint64_t next[COUNT_LIMIT];
    struct rng rng = rng_for(SEED, 0);
    uint32_t i;
    unsigned j;

    for (i = 0; i < work->files; i++) {
        const struct argument *file = &work->lent[i].of[0];
        uint64_t *board = words_of(&work->lent[i], OLD_BOARD);
        size_t words = work->lent[i].of[OLD_BOARD].length / 8;

        model_start(file->bytes, file->length, board, words);
        for (j = 0; j < SERVICE_CYCLES; j++) {
            put_pins(&rng, file->bytes, board);
            model_cycle(file->bytes, file->length, board, words, next, words);
            memcpy(board, next, 8 * words);
        }
        put_pins(&rng, file->bytes, board);
    }
}

void feedback_in_service(struct workload *work, uint32_t count)
{
    feedback(work, count);
    put_in_service(work);
}

void combinational_in_service(struct workload *work, uint32_t count)
{
    combinational(work, count);
    put_in_service(work);
}

void cut_words_in_service(struct workload *work, uint32_t count)
{
    cut_words(work, count);
    put_in_service(work);
}

void clocked(struct workload *work, uint32_t count)
{
    styled(work, count, &clocked_style, many_widths(count));
}

void clocked_with_mul(struct workload *work, uint32_t count)
{
    styled(work, count, &clocked_with_mul_style, many_widths(count));
}

/* All but the last two records are registers; then an input, which the last
   register reads, and an output of the first. */
void chain(struct workload *work, uint32_t count)
{
    struct rng rng = rng_for(SEED, count);

    work->files = 0;
    netlist_clear(&net);
    while (net.count < count - 2)
        netlist_add(&net, KIND_REGISTER, 32, net.count + 1, 0, 0, 0);
    netlist_input(&net, 32);
    netlist_output(&net, 0, width_mask(32));
    add_file(work, &rng);
}

/* Four records for each register: itself, the two parts of its word, and the
   word turned by one place. A register reads the turned word of the next one,
   which is seven records on, and the last register that of the first. Inputs
   that nobody reads fill up the count, and an output has the lowest bit of the
   first register. For a count that is a multiple of eight the number of
   registers is odd, so that all bits of all of them are cared for. A sweep
   from the last record to the first finds only one of these bits. */
void ring(struct workload *work, uint32_t count)
{
    struct rng rng = rng_for(SEED, count);
    uint32_t end = count - 4;

    work->files = 0;
    netlist_clear(&net);
    while (net.count < end) {
        uint32_t word = netlist_add(&net, KIND_REGISTER, WIDTH_LIMIT,
                                    (net.count + 7) % end, 0, 0, 0);
        uint32_t high = netlist_add(&net, KIND_EXTRACT, WIDTH_LIMIT - 1, word,
                                    0, 0, 1);
        uint32_t low = netlist_add(&net, KIND_EXTRACT, 1, word, 0, 0, 0);

        netlist_add(&net, KIND_CONCAT, WIDTH_LIMIT, low, high, 0, 0);
    }
    while (net.count < count - 1)
        netlist_input(&net, 1);
    netlist_output(&net, 2, 1);
    add_file(work, &rng);
}

/* The worst case of a product that is put together from sums, which takes a
   step for each two bits of the smaller factor up to its highest: two inputs
   as wide as can be with the highest one set, and all other records but an
   output multiply them. */
void multipliers(struct workload *work, uint32_t count)
{
    struct rng rng = rng_for(SEED, count);
    unsigned i;

    work->files = 0;
    netlist_clear(&net);
    netlist_input(&net, MULTIPLIER_LIMIT);
    netlist_input(&net, MULTIPLIER_LIMIT);
    while (net.count < count - 1)
        netlist_add(&net, KIND_MUL, MULTIPLIER_LIMIT, 0, 1, 0, 0);
    netlist_output(&net, 2, width_mask(MULTIPLIER_LIMIT));
    add_file(work, &rng);
    for (i = 0; i < 2; i++)
        own[0][1][i] = (rng_word(&rng) & width_mask(MULTIPLIER_LIMIT))
                     | (uint64_t)1 << (MULTIPLIER_LIMIT - 1);
}

/* An earlier signal of this width, from a random place on; there is one. */
static uint32_t signal_of(struct rng *rng, uint8_t width)
{
    uint32_t i = rng_below(rng, net.count);

    while (net.records[i].width != width)
        i = (i + 1) % net.count;
    return i;
}

/* One record in eight is an input, in front. Each of the others but an output
   multiplies an input by any earlier signal: products of products alone would
   soon be 0. */
static void draw_multipliers(struct rng *rng, uint32_t count)
{
    uint32_t inputs = count / 8;

    netlist_clear(&net);
    while (net.count < inputs)
        netlist_input(&net, (uint8_t)rng_between(rng, 1, MULTIPLIER_LIMIT));
    while (net.count < count - 1) {
        uint32_t a = rng_below(rng, inputs);
        uint8_t width = net.records[a].width;

        netlist_add(&net, KIND_MUL, width, a, signal_of(rng, width), 0, 0);
    }
    netlist_output(&net, inputs, width_mask(net.records[inputs].width));
}

/* New words at the inputs in front. */
static void draw_words(const struct lent *lent)
{
    static struct rng rng = { SEED };
    const uint8_t *file = lent->of[0].bytes;
    uint64_t *board = words_of(lent, BOARD);
    uint32_t i;

    for (i = 0; kind_at(file, i) == KIND_INPUT; i++)
        board[i] = rng_word(&rng) & width_mask(width_at(file, i));
}

/* Branch predictors learn how many steps each product takes, even of eight
   designs, if the words stay the same. So each call has others. */
void multipliers_of_all_widths(struct workload *work, uint32_t count)
{
    work->files = 0;
    work->renew = draw_words;
    while (work->files < MOST_FILES) {
        struct rng rng = rng_for(SEED + work->files, count);

        draw_multipliers(&rng, count);
        add_file(work, &rng);
        draw_words(&work->lent[work->files - 1]);
    }
}
