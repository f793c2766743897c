/* Files with one rule broken, and damaged ones, beside lists of any length.
   Assumes that a file refused alone is refused alike by every operation. */

#include "../model/model.h"
#include "examples.h"
#include "families.h"
#include "parts.h"

enum { LENGTHS_EACH = 60, OTHER_RECORDS = 5 };

static struct file files[FILES];

/* Files that are all valid. */
static void make_files(struct rng *rng)
{
    unsigned i;

    make_case(rng, OTHER_RECORDS, ALL_ALIKE);
    for (i = 0; i < files_of(tried); i++)
        netlist_write(&case_nets[i], &files[i]);
}

/* The files, one of which is broken, with lists of so many lengths: what is
   said of files goes before all that is said of lists. */
static void expect_rule(struct rng *rng, unsigned rule, uint32_t record)
{
    int i;

    for (i = 0; i < LENGTHS_EACH; i++) {
        struct lent lent = lend_files(tried, rng, files);

        if (i > 0)
            draw_lengths(rng, &lent);
        expect_refused(tried, &lent, rule, record);
    }
}

void broken_rules(struct rng *rng, unsigned turn)
{
    unsigned broken, rule = rules[turn];

    for (broken = 0; broken < files_of(tried); broken++) {
        make_files(rng);
        adds_write(&files[broken]);
        expect_rule(rng, rule, adds_break(&files[broken], rule, ADDS_FIRST));
    }
}

/* A record behind two inputs, and the first rule that it breaks. */
struct broken {
    unsigned rule;
    struct record record;
};

/* Shifts behind an input of 8 bits and one of 9; they are tried as all three
   kinds. */
static const struct broken shifts[SHIFT_BREAKS] = {
    { 8, ROW(LEFT_SHIFT, 8, 2, 0, 0, 3) },
    { 8, ROW(LEFT_SHIFT, 8, 2, 0, 0, 8) },
    { 9, ROW(LEFT_SHIFT, 8, 1, 0, 0, 3) },
    { 9, ROW(LEFT_SHIFT, 9, 0, 0, 0, 3) },
    { 9, ROW(LEFT_SHIFT, 8, 0, 0, 0, 8) },
    { 9, ROW(LEFT_SHIFT, 8, 0, 0, 0, 9) },
    { 9, ROW(LEFT_SHIFT, 8, 0, 0, 0, 64) },
    { 9, ROW(LEFT_SHIFT, 8, 0, 0, 0, 0x100000003u) },
    { 9, ROW(LEFT_SHIFT, 8, 0, 0, 0, 0x8000000000000000u) },
    { 9, ROW(LEFT_SHIFT, 8, 0, 0, 0, 0xffffffffffffffffu) },
    { 9, ROW(LEFT_SHIFT, 8, 0, 1, 0, 8) },
    { 10, ROW(LEFT_SHIFT, 8, 0, 1, 0, 3) },
    { 10, ROW(LEFT_SHIFT, 8, 0, 0, 1, 3) },
    { 10, KEEPING(0x100, LEFT_SHIFT, 8, 0, 0, 0, 3) }
};

/* Multipliers behind an input of 33 bits and one of 64. */
static const struct broken multipliers[MULTIPLIER_BREAKS] = {
    { 8, OF_TWO(MUL, 33, 0, 2) },
    { 9, OF_TWO(MUL, 32, 0, 0) },
    { 9, OF_TWO(MUL, 33, 0, 1) },
    { 9, OF_TWO(MUL, 64, 0, 1) },
    { 9, ROW(MUL, 64, 0, 0, 1, 1) },
    { 15, OF_TWO(MUL, 33, 0, 0) },
    { 15, OF_TWO(MUL, 64, 1, 1) },
    { 15, ROW(MUL, 33, 0, 0, 1, 0) },
    { 15, ROW(MUL, 64, 1, 1, 0, 1) },
    { 15, KEEPING(0x200000000u, MUL, 33, 0, 0, 0, 0) }
};

static void expect_broken(struct rng *rng, const struct broken *broken,
                          uint8_t kind, uint8_t first, uint8_t second)
{
    static struct netlist net;
    unsigned i;

    netlist_clear(&net);
    netlist_input(&net, first);
    netlist_input(&net, second);
    netlist_add(&net, 0, 8, 0, 0, 0, 0);
    net.records[2] = broken->record;
    net.records[2].kind = kind;
    for (i = 0; i < files_of(tried); i++) {
        make_files(rng);
        netlist_write(&net, &files[i]);
        expect_rule(rng, broken->rule, 2);
    }
}

void broken_shifts(struct rng *rng, unsigned turn)
{
    expect_broken(rng, &shifts[turn / 3],
                  (uint8_t)(KIND_LEFT_SHIFT + turn % 3), 8, 9);
}

void broken_multipliers(struct rng *rng, unsigned turn)
{
    expect_broken(rng, &multipliers[turn], KIND_MUL, 33, 64);
}

/* The refusal of the first file that is refused, or 0. */
static uint64_t refusal_of_files(void)
{
    uint64_t check = 0;
    unsigned i;

    for (i = 0; i < files_of(tried) && check >> 63 == 0; i++)
        check = model_check(files[i].bytes, files[i].length);
    return check >> 63 == 0 ? 0 : check;
}

/* A damaged file, and any second one damaged now and then. Files that pass
   all the same get words that are accepted, half of the time. */
void damaged_files(struct rng *rng, unsigned turn)
{
    const struct family *family = family_of(turn);
    unsigned damaged = turn % files_of(tried);
    struct lent lent;
    uint64_t refused;
    unsigned i;

    make_files(rng);
    for (i = 0; i < files_of(tried); i++)
        if (i == damaged || rng_once_in(rng, 4))
            family_design(family, rng, &case_nets[i], &files[i]);
    lent = lend_files(tried, rng, files);
    refused = refusal_of_files();
    if (refused == 0 && tried->prepare != NULL && rng_once_in(rng, 2))
        tried->prepare(rng, case_nets, &lent);
    if (rng_once_in(rng, 2))
        draw_lengths(rng, &lent);
    if (refused != 0)
        expect_call(tried, &lent, refused);
    else
        try_call(tried, &lent);
}
