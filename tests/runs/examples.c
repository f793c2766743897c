/* Pairs of runs by hand: what may differ, and what is no cycle.
   Assumes words worked out from the paper, for all four second runs. */

#include <inttypes.h>
#include <stdio.h>

#include "../harness/examples.h"
#include "../harness/report.h"
#include "calls.h"
#include "parts.h"

static struct masked masked;
static struct run run;
static unsigned sort;

/* Runs the design, which is made already, as each sort of second run, trimmed
   to the smallest masks, or by a list if there is one. */
static void each_sort_by(const char *name, const uint64_t *list,
                         void (*attempt)(void))
{
    test_begin(name);
    if (list == NULL) {
        trim_netlist(&masked);
    } else {
        memcpy(masked.masks, list, 8 * (size_t)masked.net.count);
        trim_netlist_by_list(&masked);
    }
    for (sort = 0; sort < SORTS; sort++) {
        run_begin(&run, &masked, sort, rng_for(40, sort));
        attempt();
    }
    test_end();
}

static void each_sort(const char *name, void (*attempt)(void))
{
    each_sort_by(name, NULL, attempt);
}

/* A cycle with these words, and the value that a signal must then have. */
static void cycle(const uint64_t *words, uint32_t number, uint64_t right)
{
    uint64_t value;

    run_cycle(&run, words);
    value = run_values(&run)[number];
    if (value != right && test_fail())
        printf("      signal %" PRIu32 " has %016" PRIx64 " instead of %016"
               PRIx64 "\n", number, value, right);
}

/* 100,000 times 70,000 and 5 is hex 1a13b8605, and the output takes 16 bits
   of it. The other words are the same but for bits above those. */
static void ramp(void)
{
    static const uint64_t words[2][3] = {
        { 100000, 70000, 5 }, { 0xdead86a0u, 0xbeef1170u, 0x77770005u }
    };
    unsigned i;

    for (i = 0; i < 4; i++) {
        cycle(words[i % 2], 5 + i / 2, 0x8605);
        run_refused(&run);
    }
}

/* The register keeps its low four bits, and only those are asked of the
   input; so its states differ in bits of its mask that are cleared. */
static void cleared_bits(void)
{
    static const uint64_t words[2][4] = {
        { 0xa5, 0x3c, 0xff, 0x00 }, { 0x15, 0xfc, 0x0f, 0x80 }
    };
    static const uint64_t outputs[4] = { 0x0b, 0x05, 0x0c, 0x0f };
    int i, j;

    if (masked.masks[0] != 0x0f || masked.masks[1] != 0xff)
        test_fail();
    for (i = 0; i < 2; i++) {
        run_start(&run);
        for (j = 0; j < 4; j++)
            cycle(&words[i][j], 2, outputs[j]);
    }
}

/* Nothing of the counter is cared for, so any two runs of it are alike. The
   trimmed one stands still. */
static void unread_counter(void)
{
    uint64_t i;

    run_start(&run);
    for (i = 0; i < 6 && !(sort & SCRAMBLED); i++)
        cycle(NULL, i % 2 ? 0 : 2, sort & TRIMMED ? 0 : i % 2 ? i : i + 1);
}

/* A cycle with these words, and what a signal must have in its mask. The plain
   run of the trimmed file has nothing else. */
static void cared_cycle(const uint64_t *words, uint32_t number,
                        uint64_t right)
{
    uint64_t value;

    run_cycle(&run, words);
    value = run_values(&run)[number];
    if ((value & masked.masks[number]) != right
        || (sort == TRIMMED && value != right))
        test_fail();
}

/* The same counter by a list that has its low four bits, which it counts. */
static void kept_counter(void)
{
    uint64_t i;

    run_start(&run);
    for (i = 0; i < 40; i++)
        cared_cycle(NULL, 2, (i + 1) & 0x0f);
}

/* The ramp by a list with bit 16 of the sum, which is hex a13b8605: the words
   are the same but for bits above that. */
static void wider_ramp(void)
{
    static const uint64_t words[2][3] = {
        { 100000, 70000, 5 }, { 0xdead86a0u, 0xbeef1170u, 0x77760005u }
    };
    unsigned i;

    for (i = 0; i < 4; i++) {
        cared_cycle(words[i % 2], 4, 0x18605);
        cared_cycle(words[i % 2], 6, 0x8605);
    }
}

/* What goes in comes out four cycles later, however many calls are refused
   in between. All its bits are cared for. */
static void refused_calls(void)
{
    static const char bits[] = "1011001110001111000010100110111";
    unsigned i, j;

    run_start(&run);
    for (i = 0; i < sizeof bits - 1; i++) {
        uint64_t in = bits[i] == '1';

        for (j = 0; j < i % 4; j++)
            run_refused(&run);
        cycle(&in, 5, i >= 4 && bits[i - 4] == '1');
    }
    if (run.refused[BY_11] == 0 || run.refused[BY_12] == 0)
        test_fail();
}

/* The register of four bits is first too wide, so that only a start helps;
   later ones bring its reset state again. */
static void starts(void)
{
    static const uint64_t in = 1;
    int i, j;

    run_board(&run)[1] = 0x1f;
    for (i = 0; i < 20; i++)
        run_refused(&run);
    if (run.refused[BY_12_AT_REGISTER] == 0)
        test_fail();
    for (i = 0; i < 3; i++) {
        run_start(&run);
        run_refused(&run);
        for (j = 0; j < 7; j++)
            cycle(&in, 5, j == 2 || j >= 4);
    }
}

/* An eighth of an angle, for which its lowest three bits do not count: -75 and
   -80 give -10, which is below -9, and 53 and 55 give 6. */
static void signed_angle(void)
{
    static const uint64_t words[4] = { 0xb5, 0xb0, 0x35, 0x37 };
    unsigned i;

    if (masked.masks[0] != 0xf8)
        test_fail();
    for (i = 0; i < 4; i++) {
        cycle(&words[i], 2, i < 2 ? 0xf6 : 6);
        cycle(&words[i], 5, i < 2);
    }
}

/* Mode 5 selects the first word and any other mode the second, for a register
   that keeps nothing. The output has the first word in every mode. */
static void dead_mode(void)
{
    uint64_t words[5] = { 0, 0, 0, 0x5a, 0xc3 };

    if (masked.masks[0] != 0 || masked.masks[2] != 0)
        test_fail();
    for (; words[0] < 8; words[0]++) {
        cycle(words, 8, 0x5a);
        if (sort == 0 && run_values(&run)[5] != words[words[0] == 5 ? 3 : 4])
            test_fail();
    }
}

/* Of a status word bits 2 and 5 are cared for: an and with 3c does away with
   others, and an or sets bits 3 and 4. For those the and needs no pattern. */
static void cut_status(void)
{
    static const uint64_t words[4][2] = {
        { 0xff, 0x24 }, { 0x00, 0xdb }, { 0x20, 0xfb }, { 0x04, 0xdf }
    };
    static const uint64_t outputs[4] = { 0x3c, 0x18, 0x38, 0x1c };
    unsigned i;

    if (masked.masks[0] != 0x24 || masked.masks[1] != 0xe7
        || masked.masks[3] != 0xff)
        test_fail();
    for (i = 0; i < 8; i++) {
        cycle(&words[i / 2][i % 2], 5, outputs[i / 2]);
        if (!(sort & SCRAMBLED)
            && run_values(&run)[1] != (sort & TRIMMED ? 0x24 : 0x3c))
            test_fail();
    }
}

static void make_cut_status(struct netlist *net)
{
    netlist_clear(net);
    netlist_input(net, 8);
    netlist_add(net, KIND_CONSTANT, 8, 0, 0, 0, 0x3c);
    netlist_add(net, KIND_AND, 8, 0, 1, 0, 0);
    netlist_add(net, KIND_CONSTANT, 8, 0, 0, 0, 0x18);
    netlist_add(net, KIND_OR, 8, 3, 2, 0, 0);
    netlist_output(net, 4, 0xff);
}

static void make_cleared_bits(struct netlist *net)
{
    netlist_clear(net);
    netlist_input(net, 8);
    netlist_add(net, KIND_REGISTER, 8, 0, 0, 0, 0xab);
    net->records[1].keep = 0x0f;
    netlist_output(net, 1, 0xff);
}

static void make_dead_mode(struct netlist *net)
{
    netlist_clear(net);
    netlist_input(net, 3);
    netlist_add(net, KIND_CONSTANT, 3, 0, 0, 0, 5);
    netlist_add(net, KIND_EQUAL, 1, 0, 1, 0, 0);
    netlist_input(net, 8);
    netlist_input(net, 8);
    netlist_add(net, KIND_MUX, 8, 2, 3, 4, 0);
    netlist_add(net, KIND_REGISTER, 8, 5, 0, 0, 0x77);
    net->records[6].keep = 0;
    netlist_add(net, KIND_XOR, 8, 3, 6, 0, 0);
    netlist_output(net, 7, 0xff);
}

static void make_signed_angle(struct netlist *net)
{
    netlist_clear(net);
    netlist_input(net, 8);
    netlist_add(net, KIND_ARITHMETIC_SHIFT, 8, 0, 0, 0, 3);
    netlist_output(net, 1, 0xff);
    netlist_add(net, KIND_CONSTANT, 8, 0, 0, 0, 0xf7);
    netlist_add(net, KIND_SIGNED_BELOW, 1, 1, 3, 0, 0);
    netlist_output(net, 4, 1);
}

void runs_examples(void)
{
    static const uint64_t low_four[] = { 0x0f, 0x0f, 0x0f };
    static const uint64_t to_bit_16[] = {
        0x1ffff, 0x1ffff, 0x1ffff, 0x1ffff, 0x1ffff, 0xffff, 0xffff
    };
    struct netlist *net = &masked.net;

    example_ramp(net, 16, 0);
    each_sort("runs: ramp, inputs that differ above bit 15", ramp);
    each_sort_by("runs: ramp by a list with bit 16, inputs differ above it",
                 to_bit_16, wider_ramp);
    make_cleared_bits(net);
    each_sort("runs: states that differ in bits which the register clears",
              cleared_bits);
    example_counter(net);
    each_sort("runs: a counter that nobody reads, whole and trimmed",
              unread_counter);
    each_sort_by("runs: the same counter by a list that keeps four bits",
                 low_four, kept_counter);
    example_shift_chain(net);
    each_sort("runs: shift chain, refused calls are no cycles",
              refused_calls);
    net->records[1].k = 4;
    each_sort("runs: a state too wide before the first start, later starts",
              starts);
    make_dead_mode(net);
    each_sort("runs: every mode, where it selects for a mux without effect",
              dead_mode);
    make_cut_status(net);
    each_sort("runs: a status word, and its pattern, that differ in cut bits",
              cut_status);
    make_signed_angle(net);
    each_sort("runs: a signed angle, words that differ in bits shifted out",
              signed_angle);
}
