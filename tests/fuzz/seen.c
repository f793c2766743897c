/* Counts refusals and kinds, and tells libFuzzer which cases an input met.
   Assumes libFuzzer's section for counters beside those of its coverage. */

#include "seen.h"

#include <stdio.h>
#include <stdlib.h>
#include <string.h>

#include "../../include/pcn.h"
#include "../harness/netlist.h"
#include "../harness/operations.h"
#include "fault.h"

enum { REFUSALS = 32, AMOUNTS = 3, SHIFTS = 3, CUTS = 2, READ_CONSTANTS = 4 };

/* The cases, each a byte. An input that meets a case for the first time is
   kept, as one is that reaches new code of the model: the model is short, and
   its code alone would not tell an add that reads a mux from one that reads
   an input. */
enum {
    REFUSED_KIND = 0, /* refusal number, kind of the record or of none */
    CARED = REFUSED_KIND + REFUSALS * (KIND_COUNT + 1),
                      /* kind, ones in its mask, ones in its keep word */
    VALUED = CARED + KIND_COUNT * AMOUNTS * AMOUNTS,
                      /* kind, ones in a value */
    /* The others are of records that have a bit cared for and kept. */
    ASKED = VALUED + KIND_COUNT * AMOUNTS,
                      /* kind, which operand, kind of that operand */
    WIDE = ASKED + KIND_COUNT * 3 * KIND_COUNT,
                      /* kind, width; that of a where the width is always 1 */
    HIGHEST = WIDE + KIND_COUNT * WIDTH_LIMIT,
                      /* for sums and the like: the highest bit asked for */
    PLACE = HIGHEST + WIDTH_LIMIT,
                      /* for extract: k */
    LOW = PLACE + WIDTH_LIMIT,
                      /* for concat: the width of b */
    MOVED = LOW + WIDTH_LIMIT,
                      /* for shifts: which of them, k */
    COPIED = MOVED + SHIFTS * WIDTH_LIMIT,
                      /* for shifts: which of them, ones in the lowest k and in
                         the highest k bits of D */
    CUT = COPIED + SHIFTS * AMOUNTS * AMOUNTS,
                      /* for and and or: which of them, which of a and b are
                         constants, ones of their k and of their values among
                         the bits of D */
    EMPTIED = CUT + CUTS * READ_CONSTANTS * AMOUNTS * AMOUNTS,
                      /* kind of a record with a mask that is not 0, which
                         operand, kind of that operand, which becomes a
                         constant when the file is compacted */
    CARRIED = EMPTIED + KIND_COUNT * 3 * KIND_COUNT,
                      /* of a change over: an input or a register, ones in its
                         mask, ones of its word in the mask and outside it */
    CASES = CARRIED + 2 * AMOUNTS * AMOUNTS * AMOUNTS
};

static uint8_t cases[CASES]
    __attribute__((section("__libfuzzer_extra_counters")));

static unsigned long tried;
static struct {
    unsigned long inputs;
    unsigned long accepted;
    unsigned long cleared;
    unsigned long cycles;
    unsigned long differed;
    unsigned long shorter;
    unsigned long emptied;
    unsigned long carried;
    unsigned long cut;
    unsigned long refused[REFUSALS];
    unsigned long kinds[KIND_COUNT];
} counts;

static void write_counts(void)
{
    FILE *out = fopen(getenv("PCN_FUZZ_COUNTS"), "w");
    uint64_t possible = 0;
    unsigned i;

    if (out == NULL) {
        perror("PCN_FUZZ_COUNTS");
        return;
    }
    fprintf(out, "inputs %lu\n", counts.inputs);
    fprintf(out, "accepted %lu\n", counts.accepted);
    fprintf(out, "cleared %lu\n", counts.cleared);
    fprintf(out, "cycles %lu\n", counts.cycles);
    fprintf(out, "differed %lu\n", counts.differed);
    fprintf(out, "shorter %lu\n", counts.shorter);
    fprintf(out, "emptied %lu\n", counts.emptied);
    fprintf(out, "carried %lu\n", counts.carried);
    fprintf(out, "cut %lu\n", counts.cut);
    for (i = 0; i < OPERATIONS; i++)
        possible |= operations[i]->refusals;
    for (i = 1; i < REFUSALS; i++)
        if (possible & REFUSAL(i))
            fprintf(out, "refused %u %lu\n", i, counts.refused[i]);
    for (i = 0; i < KIND_COUNT; i++)
        fprintf(out, "kind %u %lu\n", i, counts.kinds[i]);
    fclose(out);
}

void seen_begin(void)
{
    if (getenv("PCN_FUZZ_COUNTS") != NULL)
        atexit(write_counts);
}

void seen_search(void)
{
    static int searching;

    if (!searching)
        memset(&counts, 0, sizeof counts);
    searching = 1;
}

void seen_input(void)
{
    counts.inputs++;
    fault_at_input(++tried);
}

/* The kind byte of the record that was refused. KIND_COUNT stands for one
   that is no kind, and for refusals that name no record of the file. */
static unsigned refused_kind(const uint8_t *file, uint64_t answer)
{
    unsigned refusal = PCN_REFUSAL(answer);
    unsigned kind;

    if (refusal < PCN_BAD_KIND || refusal == PCN_BAD_LIST
        || refusal == PCN_BAD_DESTINATION
        || PCN_RECORD(answer) >= read_16(file + 6))
        return KIND_COUNT;
    kind = kind_at(file, PCN_RECORD(answer));
    return kind < KIND_COUNT ? kind : KIND_COUNT;
}

void seen_refused(const uint8_t *file, uint64_t answer)
{
    unsigned refusal = PCN_REFUSAL(answer);

    counts.refused[refusal]++;
    cases[REFUSED_KIND + refusal * (KIND_COUNT + 1)
          + refused_kind(file, answer)] = 1;
}

void seen_checked(const uint8_t *file, uint64_t answer)
{
    uint8_t met[KIND_COUNT] = { 0 };
    uint32_t i;

    if (PCN_REFUSED(answer)) {
        seen_refused(file, answer);
        return;
    }
    counts.accepted++;
    for (i = 0; i < (uint32_t)answer; i++)
        met[kind_at(file, i)] = 1;
    for (i = 0; i < KIND_COUNT; i++)
        counts.kinds[i] += met[i];
}

/* None of all these bits, some, or all. */
static unsigned amount_of(uint64_t bits, uint64_t all)
{
    return bits == 0 ? 0 : bits == all ? 2 : 1;
}

/* The same of the bits within the width. */
static unsigned amount(uint64_t bits, unsigned width)
{
    return amount_of(bits, width_mask(width));
}

static unsigned highest(uint64_t bits)
{
    unsigned bit = 0;

    while (bits >>= 1)
        bit++;
    return bit;
}

/* How far a shift moves, and whether D has bits where zeros or copies of the
   top bit come in. */
static void note_shift(const struct record *record, uint64_t d)
{
    unsigned which = record->kind - KIND_LEFT_SHIFT;
    unsigned k = (unsigned)record->k;

    cases[MOVED + which * WIDTH_LIMIT + k] = 1;
    cases[COPIED + (which * AMOUNTS + amount(d & width_mask(k), k)) * AMOUNTS
          + amount(d >> (record->width - 1u - k) >> 1, k)] = 1;
}

/* Which operands of an and or an or are constants, and what these have where D
   has bits. */
static void note_cut(const uint8_t *file, const struct record *record,
                     uint64_t d)
{
    unsigned at = record->kind - KIND_AND, i;
    uint64_t k = d, value = d;

    for (i = 0; i < 2; i++) {
        struct record operand = read_record(file, record->operand[i]);
        int is_constant = operand.kind == KIND_CONSTANT;

        at = 2 * at + (unsigned)is_constant;
        k &= is_constant ? operand.k : d;
        value &= is_constant ? operand.k & operand.keep : d;
    }
    cases[CUT + (at * AMOUNTS + amount_of(k, d)) * AMOUNTS
          + amount_of(value, d)] = 1;
}

/* The widths and places at which a record is at work; `d` is not 0. */
static void note_places(const uint8_t *file, const struct record *record,
                        uint64_t d)
{
    unsigned width = record->width;

    switch (record->kind) {
    case KIND_EXTRACT:
        cases[PLACE + record->k] = 1;
        break;
    case KIND_CONCAT:
        cases[LOW + width_at(file, record->operand[1])] = 1;
        break;
    case KIND_AND:
    case KIND_OR:
        note_cut(file, record, d);
        break;
    case KIND_ADD:
    case KIND_SUB:
    case KIND_MUL:
        cases[HIGHEST + highest(d)] = 1;
        break;
    case KIND_LEFT_SHIFT:
    case KIND_RIGHT_SHIFT:
    case KIND_ARITHMETIC_SHIFT:
        note_shift(record, d);
        break;
    case KIND_EQUAL:
    case KIND_BELOW:
    case KIND_SIGNED_BELOW:
        width = width_at(file, record->operand[0]);
        break;
    default:
        break;
    }
    cases[WIDE + record->kind * WIDTH_LIMIT + width - 1] = 1;
}

static void note_record(const uint8_t *file, const struct record *record,
                        uint64_t mask)
{
    unsigned kind = record->kind;
    unsigned i;

    cases[CARED + (kind * AMOUNTS + amount(mask, record->width)) * AMOUNTS
          + amount(record->keep, record->width)] = 1;
    if ((mask & record->keep) == 0)
        return;
    note_places(file, record, mask & record->keep);
    for (i = 0; i < kind_operands(record->kind); i++)
        cases[ASKED + (kind * 3 + i) * KIND_COUNT
              + kind_at(file, record->operand[i])] = 1;
}

void seen_masks(const uint8_t *file, const uint64_t *masks, int cleared)
{
    uint32_t count = read_16(file + 6);
    uint32_t i;

    counts.cleared += (unsigned long)cleared;
    for (i = 0; i < count; i++) {
        struct record record = read_record(file, i);

        note_record(file, &record, masks[i]);
    }
}

/* Notes each operand that becomes a constant, of a record that does not; true
   if there is one. */
static int note_emptied(const uint8_t *file, const struct record *record,
                        const uint64_t *masks)
{
    int found = 0;
    unsigned i;

    for (i = 0; i < kind_operands(record->kind); i++) {
        uint32_t operand = record->operand[i];

        if (masks[operand] != 0 || kind_at(file, operand) == KIND_INPUT)
            continue;
        cases[EMPTIED + (record->kind * 3u + i) * KIND_COUNT
              + kind_at(file, operand)] = 1;
        found = 1;
    }
    return found;
}

void seen_compacted(const uint8_t *file, const uint64_t *masks, int shorter)
{
    uint32_t count = read_16(file + 6), i;
    int found = 0;

    for (i = 0; i < count; i++) {
        struct record record = read_record(file, i);

        if (masks[i] != 0)
            found |= note_emptied(file, &record, masks);
    }
    counts.shorter += (unsigned long)shorter;
    counts.emptied += (unsigned long)found;
}

/* Of an input or a register: how much of its word is carried. */
static void note_carried(const uint8_t *file, uint32_t number, uint64_t mask,
                         uint64_t word)
{
    unsigned width = width_at(file, number);
    unsigned at = kind_at(file, number) == KIND_REGISTER;
    uint64_t uncared = width_mask(width) & ~mask;

    at = at * AMOUNTS + amount(mask, width);
    at = at * AMOUNTS + amount_of(word & mask, mask);
    cases[CARRIED + at * AMOUNTS + amount_of(word & uncared, uncared)] = 1;
}

void seen_changed_over(const uint8_t *file, const uint64_t *masks,
                       const uint64_t *board)
{
    uint32_t count = read_16(file + 6), i;
    int carried = 0, cut = 0;

    for (i = 0; i < count; i++) {
        int is_register = kind_at(file, i) == KIND_REGISTER;

        if (is_register || kind_at(file, i) == KIND_INPUT)
            note_carried(file, i, masks[i], board[i]);
        carried |= is_register && (board[i] & masks[i]) != 0;
        cut |= is_register && (board[i] & ~masks[i]) != 0;
    }
    counts.carried += (unsigned long)carried;
    counts.cut += (unsigned long)cut;
}

void seen_values(const uint8_t *file, const uint64_t *values, int differed)
{
    uint32_t count = read_16(file + 6);
    uint32_t i;

    counts.cycles++;
    counts.differed += (unsigned long)differed;
    for (i = 0; i < count; i++)
        cases[VALUED + kind_at(file, i) * AMOUNTS
              + amount(values[i], width_at(file, i))] = 1;
}
