/* Counts which cases of each kind the cycles of random designs met.
   Assumes values within the widths. */

#include "../harness/facts.h"
#include "parts.h"
#include "settled.h"

/* The words of a record and of its operands in one cycle. */
struct words {
    uint64_t result, value, a, b, c;
};

static struct facts facts;

static void met(const char *name, int is_met)
{
    fact(&facts, name, is_met);
}

/* A record, the one that is its a, and what it does to bits that it moves or
   chooses. */
static void note_wires(const struct record *r, const struct record *a,
                       const struct words *w)
{
    int loads = r->kind == KIND_REGISTER, extracts = r->kind == KIND_EXTRACT;
    int joins = r->kind == KIND_CONCAT;
    int chooses = r->kind == KIND_MUX && w->b != w->c;

    met("inputs that are cut", r->kind == KIND_INPUT && w->result != w->value);
    met("registers that are cut", loads && w->result != w->value);
    met("others that are cut",
        !kind_is_given(r->kind) && w->result != w->value);
    met("registers that read themselves", loads && a == r);
    met("registers that read earlier records", loads && a < r);
    met("registers that read later ones", loads && a > r);
    met("registers that read another register",
        loads && a != r && a->kind == KIND_REGISTER);
    met("registers that change their state", loads && w->a != w->result);
    met("reset states outside the keep word", loads && (r->k & ~r->keep) != 0);
    met("extracts that move bits", extracts && r->k > 0 && w->result != 0);
    met("extracts that drop bits above",
        extracts && w->a >> r->k > width_mask(r->width));
    met("extracts up to bit 63", extracts && r->k > 0 && r->k + r->width == 64);
    met("concats of two parts that are not 0", joins && w->a != 0 && w->b != 0);
    met("concats of 64 bits", joins && r->width == 64);
    met("muxes that take b, and c is another", chooses && w->a == 1);
    met("muxes that take c, and b is another", chooses && w->a == 0);
    met("outputs that are not 0", r->kind == KIND_OUTPUT && w->value != 0);
}

/* Shifts that lose bits, that copy the top bit, and by how many places. */
static void note_shifts(const struct record *r, const struct words *w)
{
    int shifts = kind_shifts(r->kind) && w->result != 0;
    int copies = r->kind == KIND_ARITHMETIC_SHIFT && r->k > 0 && w->a != 0;
    int is_negative = w->a >> (r->width - 1) != 0;

    met("left shifts that drop bits",
        r->kind == KIND_LEFT_SHIFT && w->a > width_mask(r->width) >> r->k);
    met("right shifts that drop bits",
        r->kind == KIND_RIGHT_SHIFT && w->a >> r->k << r->k != w->a);
    met("copies of a top bit that is 1", copies && is_negative);
    met("copies of a top bit that is 0", copies && !is_negative);
    met("shifts by no place", shifts && r->k == 0);
    met("shifts by all places but one",
        shifts && r->k > 0 && r->k + 1 == r->width);
    met("shifts of 64 bits", shifts && r->k > 0 && r->width == 64);
}

/* A signed comparison of words whose top bit this is. */
static void note_signs(const struct record *r, const struct words *w,
                       uint64_t top)
{
    int compares = r->kind == KIND_SIGNED_BELOW && w->a != w->b;
    int a = (w->a & top) != 0, b = (w->b & top) != 0;

    met("signed: only a is negative", compares && a && !b);
    met("signed: only b is negative", compares && !a && b);
    met("signed: two negative ones", compares && a && b);
    met("signed: none is negative", compares && !a && !b);
    met("signed: equal operands",
        r->kind == KIND_SIGNED_BELOW && w->a == w->b);
}

static void note_numbers(const struct record *r, const struct words *w)
{
    uint64_t full = width_mask(r->width);
    int wide = r->width == 64;
    int carries = r->kind == KIND_ADD && w->a > full - w->b;
    int borrows = r->kind == KIND_SUB && w->a < w->b;
    int multiplies = r->kind == KIND_MUL && w->a > 1 && w->b > 1;
    int cuts = multiplies && w->a > full / w->b;
    int widest = r->width == MULTIPLIER_LIMIT;
    int equal = r->kind == KIND_EQUAL, below = r->kind == KIND_BELOW;

    met("sums that drop a carry", carries && !wide);
    met("sums of 64 bits that drop a carry", carries && wide);
    met("differences below 0", borrows && !wide);
    met("differences of 64 bits below 0", borrows && wide);
    met("products cut", cuts && !widest);
    met("products of 32 bits cut", cuts && widest);
    met("products not cut", multiplies && !cuts);
    met("equal operands", equal && w->a == w->b);
    met("unequal ones", equal && w->a != w->b);
    met("operands below", below && w->a < w->b);
    met("operands above", below && w->a > w->b);
    met("below with equal operands", below && w->a == w->b);
}

void clock_note_cycle(const struct netlist *net, const struct lent *before,
                      const struct lent *after)
{
    const uint64_t *values = words_of(after, BOARD);
    uint32_t i;

    for (i = 0; i < net->count; i++) {
        const struct record *record = &net->records[i];
        const uint32_t *operand = record->operand;
        const struct record *a = &net->records[operand[0]];
        struct words words = { settled_result(before, after, i), values[i],
                               values[operand[0]], values[operand[1]],
                               values[operand[2]] };

        facts.many = 0;
        note_wires(record, a, &words);
        note_numbers(record, &words);
        note_shifts(record, &words);
        note_signs(record, &words, (uint64_t)1 << (a->width - 1));
    }
}

void clock_coverage(void)
{
    judge_facts("coverage: every kind met in each of its cases", &facts);
}
