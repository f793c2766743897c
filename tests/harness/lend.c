/* Lends memory for calls: files as written, lists and words that suit them.
   Assumes no file and no list longer than FILE_ROOM. */

#include "lend.h"

#include <string.h>

#include "designs.h"
#include "words.h"

/* What a file without a header is taken for. */
enum { RECORDS_OF_NONE = 3 };

enum { MOST_BITS = 8 };

/* Words, so that lists of words are aligned as they must be. */
static uint64_t memory[PARAMETERS][FILE_ROOM / 8];

int is_measured(const struct parameter *parameter)
{
    return parameter->measure != ANY_LENGTH;
}

unsigned files_of(const struct operation *operation)
{
    unsigned files = 0;
    unsigned i;

    for (i = 0; i < PARAMETERS; i++)
        files += operation->parameters[i].sort == A_FILE;
    return files;
}

unsigned parameters_of(const struct operation *operation)
{
    unsigned many = 0;

    while (many < PARAMETERS
           && operation->parameters[many].sort != NO_PARAMETER)
        many++;
    return many;
}

static uint32_t count_of(const struct argument *file)
{
    if (file->length < HEADER_BYTES)
        return RECORDS_OF_NONE;
    return read_16(file->bytes + 6);
}

size_t right_length(const struct operation *operation,
                    const struct lent *lent, unsigned parameter)
{
    const struct parameter *measured = &operation->parameters[parameter];
    const struct argument *file = &lent->of[measured->file];

    if (measured->measure == WORD_A_RECORD)
        return 8 * (size_t)count_of(file);
    return measured->measure == LENGTH_OF_FILE ? file->length : 0;
}

/* For a list of any length: short ones are likelier. */
static size_t any_length(struct rng *rng)
{
    size_t most = (size_t)8 << rng_below(rng, 16);

    return rng_below(rng, (uint32_t)most + 1) / 8 * 8;
}

/* A number: often a record of one of the files or just beyond, and now and
   then one that is cut to such a number, or any. */
static uint64_t any_number(const struct operation *operation, struct rng *rng,
                           const struct lent *lent)
{
    unsigned drawn = rng_below(rng, parameters_of(operation));
    unsigned file = operation->parameters[drawn].sort == A_FILE ? drawn : 0;
    uint64_t number = rng_below(rng, count_of(&lent->of[file]) + 2);

    if (rng_once_in(rng, 4))
        number |= rng_word(rng) << 32;
    return rng_once_in(rng, 8) ? rng_word(rng) : number;
}

void lend_anew(const struct operation *operation, struct rng *rng,
               struct lent *lent, unsigned parameter)
{
    const struct parameter *drawn = &operation->parameters[parameter];
    struct argument *argument = &lent->of[parameter];

    if (drawn->sort == A_NUMBER) {
        argument->number = any_number(operation, rng, lent);
        return;
    }
    argument->bytes = (uint8_t *)memory[parameter];
    argument->length = is_measured(drawn)
        ? right_length(operation, lent, parameter) : any_length(rng);
    rng_fill(rng, argument->bytes, argument->length);
}

static void change_bits(struct rng *rng, const struct argument *list)
{
    uint32_t bits = rng_once_in(rng, 2) ? 1 : rng_between(rng, 2, MOST_BITS);

    while (list->length > 0 && bits-- > 0)
        list->bytes[rng_below(rng, (uint32_t)list->length)]
            ^= (uint8_t)(1u << rng_below(rng, 8));
}

void lend_spoilt(const struct operation *operation, struct rng *rng,
                 struct lent *lent)
{
    unsigned i;

    for (i = 0; i < parameters_of(operation); i++) {
        enum sort sort = operation->parameters[i].sort;

        if ((sort & READ) == 0 || rng_once_in(rng, 3))
            continue;
        if (sort == A_NUMBER || rng_once_in(rng, 2))
            lend_anew(operation, rng, lent, i);
        else
            change_bits(rng, &lent->of[i]);
    }
}

struct lent lend_files(const struct operation *operation, struct rng *rng,
                       const struct file *files)
{
    struct lent lent;
    unsigned i;

    memset(&lent, 0, sizeof lent);
    for (i = 0; i < PARAMETERS; i++) {
        if (operation->parameters[i].sort != A_FILE)
            continue;
        lent.of[i].bytes = (uint8_t *)memory[i];
        lent.of[i].length = files->length;
        memcpy(memory[i], files->bytes, files->length);
        files++;
    }
    for (i = 0; i < parameters_of(operation); i++)
        if (operation->parameters[i].sort != A_FILE)
            lend_anew(operation, rng, &lent, i);
    return lent;
}

struct lent lend(const struct operation *operation, struct rng *rng,
                 const struct netlist *nets)
{
    static struct file files[FILES];
    struct lent lent;
    unsigned i;

    for (i = 0; i < files_of(operation); i++)
        netlist_write(&nets[i], &files[i]);
    lent = lend_files(operation, rng, files);
    if (operation->prepare != NULL)
        operation->prepare(rng, nets, &lent);
    return lent;
}

void lists_turn(struct lent *lent)
{
    struct argument board = lent->of[BOARD];

    lent->of[BOARD] = lent->of[NEXT];
    lent->of[NEXT] = board;
}

int kind_is_given(uint8_t kind)
{
    return kind == KIND_INPUT || kind == KIND_REGISTER;
}

uint64_t given_word(struct rng *rng, unsigned width)
{
    switch (rng_below(rng, 8)) {
    case 0:
        return 0x5555555555555555u & width_mask(width);
    case 1:
        return 0xaaaaaaaaaaaaaaaau & width_mask(width);
    default:
        return design_word(rng, width);
    }
}

void put_words(uint64_t *list, struct rng *rng, const struct netlist *net,
               uint8_t kind)
{
    uint32_t i;

    for (i = 0; i < net->count; i++)
        if (net->records[i].kind == kind)
            list[i] = given_word(rng, net->records[i].width);
}

static void put_given_words(uint64_t *list, struct rng *rng,
                            const struct netlist *net)
{
    put_words(list, rng, net, KIND_INPUT);
    put_words(list, rng, net, KIND_REGISTER);
}

void prepare_board(struct rng *rng, const struct netlist *nets,
                   struct lent *lent)
{
    put_given_words(words_of(lent, BOARD), rng, nets);
}

void prepare_old_board(struct rng *rng, const struct netlist *nets,
                       struct lent *lent)
{
    put_given_words(words_of(lent, OLD_BOARD), rng, nets);
}
