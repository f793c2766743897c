/* Lists that are wrong at several records, which are mended one by one.
   Assumes that the list was one that meets the rules before. */

#include <string.h>

#include "../harness/designs.h"
#include "../harness/facts.h"
#include "../harness/lists.h"
#include "../harness/report.h"
#include "../harness/styles.h"
#include "../harness/trial.h"
#include "by_list.h"
#include "parts.h"

enum {
    FIRST = 14000000, /* apart from the numbers of other tests */
    DESIGNS = 6300,
    MOST_COUNT = 60,
    MOST_SPOILT = 5
};

static struct netlist net;
static uint64_t right[COUNT_LIMIT], list[COUNT_LIMIT];
static struct facts facts;

/* What came of a list: how often it was refused, and whether it was so for a
   bit outside a width, for one that was lacking, at a record below the one
   that was mended last, and at another than the lowest that is wrong. */
static struct {
    unsigned times;
    int is_outside, is_lacking, is_lower, is_not_lowest;
} met;

/* Takes a bit away, or puts one outside the width. */
static void spoil_bit(uint32_t number, unsigned bit)
{
    uint64_t place = (uint64_t)1 << bit;

    if (bit >= net.records[number].width)
        list[number] |= place;
    else
        list[number] &= ~place;
}

/* Spoils a record, now and then with the same bit in an operand: this one is
   missed only once the record is mended, and asks for its bit again. */
static void spoil(struct rng *rng, uint32_t number)
{
    const struct record *record = &net.records[number];
    unsigned bit = rng_below(rng, rng_once_in(rng, 3) ? 64 : record->width);

    spoil_bit(number, bit);
    if (kind_uses(record->kind, 'a') && rng_once_in(rng, 3))
        spoil_bit(record->operand[0], bit);
}

/* Whether it is the lowest record whose mask is not the right one. */
static int is_lowest_spoilt(uint32_t number)
{
    uint32_t i = 0;

    while (i < number && list[i] == right[i])
        i++;
    return i == number;
}

/* A record that was left alone is asked for no more than before and has its
   mask, so that it cannot be refused. */
static void note_refused(uint64_t answer, uint32_t last)
{
    uint32_t named = (uint32_t)answer;

    if (named >= net.count || answer != refused_answer(14, named)
        || list[named] == right[named]) {
        test_fail();
        return;
    }
    met.is_lower |= met.times > 0 && named < last;
    met.is_outside |= (list[named] & ~right[named]) != 0;
    met.is_lacking |= (list[named] & ~right[named]) == 0;
    met.is_not_lowest |= !is_lowest_spoilt(named);
    met.times++;
    list[named] = right[named];
}

/* Mends what is refused, which is at most all that was spoilt. */
static void mend(unsigned spoilt)
{
    uint32_t last = 0;

    memset(&met, 0, sizeof met);
    for (;;) {
        uint64_t answer = list_call(&net, list).answer;

        if (answer >> 63 == 0)
            break;
        if (met.times == spoilt) {
            test_fail();
            break;
        }
        note_refused(answer, last);
        last = (uint32_t)answer;
    }
    facts.many = 0;
    fact(&facts, "accepted all the same", met.times == 0);
    fact(&facts, "refused once", met.times == 1);
    fact(&facts, "refused several times", met.times > 1);
    fact(&facts, "refused for a bit outside a width", met.is_outside);
    fact(&facts, "refused for a bit that is lacking", met.is_lacking);
    fact(&facts, "refused at a lower record after one was mended",
         met.is_lower);
    fact(&facts, "refused above a record that lacks a bit nobody asks",
         met.is_not_lowest);
}

void trim_by_spoilt(uint64_t seed)
{
    static struct file file;
    unsigned i, j;

    test_begin("by list: wrong at several records, mended one by one");
    for (i = 0; i < DESIGNS; i++) {
        struct rng rng = rng_for(seed, FIRST + i);
        unsigned spoilt = rng_between(&rng, 1, MOST_SPOILT);

        design_by_turn(&rng, &net, rng_between(&rng, 1, MOST_COUNT), i);
        netlist_write(&net, &file);
        draw_list(&rng, file.bytes, right,
                  (enum list_sort)rng_below(&rng, LIST_SORTS));
        memcpy(list, right, sizeof list);
        for (j = 0; j < spoilt; j++)
            spoil(&rng, rng_below(&rng, net.count));
        mend(2 * spoilt);
    }
    test_end();
    judge_facts("by list: facts of lists that are wrong", &facts);
}
