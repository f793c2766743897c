/* Every rule at its edges, and which refusal wins.
   Assumes the order of 01 and #106: 1 to 5, then records rising, each from 6
   to 9, then 15, then 10. */

#include <stdio.h>
#include <string.h>

#include "../harness/examples.h"
#include "../harness/operations.h"
#include "../harness/report.h"
#include "../harness/trial.h"
#include "parts.h"

static struct netlist net;
static struct record *const tested = &net.records[READER];

static uint64_t refused(unsigned refusal)
{
    return refused_answer(refusal, 0);
}

/* Every value of one byte or two of a header without records: all but the
   right one are refused. Where the count is allowed, the records lack. */
static void every_value(const char *name, size_t at, size_t bytes,
                        unsigned refusal)
{
    static const uint8_t empty[] = { 'P', 'C', 'N', 1, 0, 0, 0, 0 };
    uint32_t right = bytes == 1 ? empty[at] : read_16(empty + at);
    uint8_t header[HEADER_BYTES];
    uint32_t value;

    test_begin(name);
    memcpy(header, empty, HEADER_BYTES);
    for (value = 0; value < (bytes == 1 ? 256u : 65536u); value++) {
        header[at] = (uint8_t)value;
        if (bytes == 2)
            header[at + 1] = (uint8_t)(value >> 8);
        expect_bytes(header, HEADER_BYTES, value == right ? 0
                     : refused(at == 6 && value <= 2048 ? 5 : refusal));
    }
    test_end();
}

/* Every length near the right one, for these counts of inputs. */
static void every_length(void)
{
    static const uint32_t counts[] = { 0, 1, 2, 3, 256, 2047, 2048 };
    static struct file file;
    size_t i, length;

    test_begin("1 and 5: every length from 0 or near the right one");
    for (i = 0; i < sizeof counts / sizeof *counts; i++) {
        netlist_clear(&net);
        while (net.count < counts[i])
            netlist_input(&net, 1);
        netlist_write(&net, &file);
        memset(file.bytes + file.length, 0, 60);
        length = file.length < 100 ? 0 : file.length - 60;
        for (; length < file.length + 60; length++)
            expect_bytes(file.bytes, length, length == file.length ? counts[i]
                         : refused(length < 8 ? 1 : 5));
    }
    test_end();
}

/* Breaks every choice of rules, from 6 on in the first add, and one of these
   or none in the second. A file that is too short is also tried too long. */
static void try_choice(unsigned choice, unsigned behind)
{
    static struct file file;
    uint64_t answer = ADDS_COUNT;
    unsigned i;

    adds_write(&file);
    file.bytes[file.length] = 0;
    if (behind < RULES)
        answer = refused_answer(rules[behind], adds_break(&file, rules[behind],
                                                          ADDS_SECOND));
    for (i = RULES; i-- > 0;)
        if (choice >> i & 1)
            answer = refused_answer(rules[i], adds_break(&file, rules[i],
                                                         ADDS_FIRST));
    expect_bytes(file.bytes, file.length, answer);
    if (choice >> 4 & 1 && file.length >= HEADER_BYTES)
        expect_bytes(file.bytes, file.length + 2, answer);
}

static void first_wins(void)
{
    unsigned choice, behind;

    test_begin("the lowest of 1 to 5, then the lowest record's first: 6 to 9,"
               " 15, 10");
    for (choice = 0; choice < 1u << RULES; choice++)
        for (behind = 5; behind <= RULES; behind++)
            try_choice(choice, behind);
    test_end();
}

/* A register of 8 bits in record 0 reads the record behind it, which has this
   kind and width and reads record 0 only. */
static void expect_ahead(uint8_t kind, uint8_t width, unsigned refusal,
                         uint32_t record)
{
    netlist_clear(&net);
    netlist_add(&net, KIND_REGISTER, 8, 1, 0, 0, 1);
    netlist_add(&net, kind, width, 0, 0, 0, 0);
    net.records[1].keep = 0;
    expect_check(&net, refusal, record);
}

/* The register passes where the kind is no output and the width is its own.
   The record behind it is refused for what it does with record 0. */
static void reading_ahead(void)
{
    static const unsigned of_kind[KIND_COUNT] = {
        0, 0, 0, 8, 0, 9, 0, 0, 0, 9, 0, 0, 0, 9, 9, 0, 0, 0, 9
    };
    unsigned byte;

    test_begin("a register goes by a later kind and width as they stand");
    for (byte = 0; byte < 256; byte++) {
        unsigned refusal = byte < KIND_COUNT ? of_kind[byte] : 6;

        expect_ahead((uint8_t)byte, 8, refusal, refusal != 8);
        expect_ahead(KIND_INPUT, (uint8_t)byte, byte == 8 ? 0 : 9, 0);
        expect_ahead(KIND_OUTPUT, (uint8_t)byte, 8, 0);
        expect_ahead(200, (uint8_t)byte, byte == 8 ? 6 : 9, byte == 8);
    }
    test_end();
    test_begin("a register that reads itself is judged by its own width");
    for (byte = 0; byte < 256; byte++) {
        netlist_clear(&net);
        netlist_add(&net, KIND_REGISTER, (uint8_t)byte, 0, 0, 0, 1);
        expect_check(&net, byte >= 1 && byte <= 64 ? 0 : 7, 0);
    }
    test_end();
}

/* One operand names itself, a later record, none at all, or an output. Only
   a register may read the first two. */
static void every_operand(uint8_t kind, unsigned place)
{
    static const uint32_t named[] = {
        READER, READER + 1, READER + 2, READER + 3, 256, 2047, 2048, 32768,
        65535, READER - 1
    };
    enum { MANY = sizeof named / sizeof *named };
    size_t i;

    reader_suited(&net, kind, most_width(kind));
    netlist_input(&net, (uint8_t)most_width(kind));
    for (i = 0; i < MANY; i++) {
        if (i == MANY - 1) {
            net.records[READER - 1].kind = KIND_OUTPUT;
            net.records[READER - 1].operand[0] = READER - 2;
        }
        tested->operand[place] = named[i];
        expect_check(&net, kind == KIND_REGISTER && i < 2 ? 0 : 8, READER);
    }
}

/* The record that is tested has bits that fit or do not; a multiplier of more
   than 32 bits is refused before that. */
static void expect_bits(int fit)
{
    int is_wide = tested->kind == KIND_MUL && tested->width > 32;

    expect_check(&net, is_wide ? 15 : fit ? 0 : 10, READER);
}

/* Every single bit of an unused operand, of the keep word and of k, but for
   the k of an extract or a shift, which the width rule limits. */
static void every_bit(uint8_t kind, unsigned width)
{
    int is_state = kind == KIND_CONSTANT || kind == KIND_REGISTER;
    int is_place = kind == KIND_EXTRACT || kind_shifts(kind);
    unsigned bit;

    reader_suited(&net, kind, width);
    expect_bits(1);
    for (bit = 16 * kind_operands(kind); bit < 48; bit++) {
        tested->operand[bit / 16] = 1u << bit % 16;
        expect_bits(0);
        tested->operand[bit / 16] = 0;
    }
    for (bit = 0; bit < 64; bit++) {
        tested->keep = (uint64_t)1 << bit;
        expect_bits(bit < width);
    }
    tested->keep = 0;
    for (bit = 0; bit < 64 && !is_place; bit++) {
        tested->k = (uint64_t)1 << bit;
        expect_bits(is_state && bit < width);
    }
}

/* All its operands, and all widths; 256 stands for 0. */
static void every_field(uint8_t kind)
{
    unsigned most = most_width(kind);
    unsigned width, place;

    for (place = 0; place < kind_operands(kind); place++)
        every_operand(kind, place);
    for (width = least_width(kind); width <= most; width++)
        every_bit(kind, width);
    reader_suited(&net, kind, most);
    for (width = 65; width <= 256; width++) {
        tested->width = (uint8_t)width;
        expect_check(&net, 7, READER);
    }
}

/* Each record of a full file: a register reads it, then it is broken. */
static void every_record(void)
{
    uint32_t number;

    netlist_clear(&net);
    netlist_add(&net, KIND_REGISTER, 1, 0, 0, 0, 1);
    while (net.count < 2048)
        netlist_input(&net, 1);
    for (number = 0; number < 2048; number++) {
        net.records[0].operand[0] = number;
        expect_check(&net, 0, 0);
        net.records[number].keep = 2;
        expect_check(&net, 10, number);
        net.records[number].keep = 1;
    }
    net.records[0].operand[0] = 2048;
    expect_check(&net, 8, 0);
}

static void check_records(void)
{
    unsigned kind, width;

    test_begin("7, 8, 10: every width, operand and bit of every kind");
    for (kind = 0; kind < KIND_COUNT; kind++)
        every_field((uint8_t)kind);
    test_end();
    test_begin("15: every width above 32 of a multiplier, before 10");
    for (width = 33; width <= 64; width++)
        every_bit(KIND_MUL, width);
    test_end();
    test_begin("6: every kind above 18");
    reader_suited(&net, KIND_INPUT, 8);
    for (; kind < 256; kind++) {
        tested->kind = (uint8_t)kind;
        expect_check(&net, 6, READER);
    }
    test_end();
    test_begin("8, 10: each of 2,048 records is read and is answered");
    every_record();
    test_end();
}

#define OF_ONE_WIDTH \
    { KIND_AND, KIND_OR, KIND_XOR, KIND_ADD, KIND_SUB }
#define SHIFTS { KIND_LEFT_SHIFT, KIND_RIGHT_SHIFT, KIND_ARITHMETIC_SHIFT }
#define COMPARISONS { KIND_EQUAL, KIND_BELOW, KIND_SIGNED_BELOW }

/* The widths of a record and of the three inputs that it may read, then its
   k, a letter each: x, y and z take every value from 1 to 64, 1 is 1, and *
   is 64. The k is 0, or z - 1 (k), or x + z - 1 (o), or 64 << (z - 1), which
   is 0 for the last six (p), or 2^64 less z (n) or less p (m). Then how many
   must be accepted, for each kind. */
static const struct grid {
    const char *name;
    const char *letters;
    unsigned long accepted;
    uint8_t kinds[7];
} grids[] = {
    { "9: register and output", "xy110", 64, { KIND_REGISTER, KIND_OUTPUT } },
    { "9: extract", "xy11k", 64 * 65 * 66 / 6, { KIND_EXTRACT } },
    { "9: extract at places far beyond", "x*11p", 6 * 64, { KIND_EXTRACT } },
    { "9: extract up to 2^64 - 1", "x*11n", 0, { KIND_EXTRACT } },
    { "9: extract far below 2^64", "x*11m", 6 * 64, { KIND_EXTRACT } },
    { "9: concat", "zxy10", 64 * 63 / 2, { KIND_CONCAT } },
    { "9: bit by bit and sums: another width", "yxx10", 64, OF_ONE_WIDTH },
    { "9: bit by bit and sums: another a", "xyx10", 64, OF_ONE_WIDTH },
    { "9: bit by bit and sums: another b", "xxy10", 64, OF_ONE_WIDTH },
    { "9, else 15: mul: another width", "yxx10", 32, { KIND_MUL } },
    { "9, else 15: mul: another a", "xyx10", 32, { KIND_MUL } },
    { "9, else 15: mul: another b", "xxy10", 32, { KIND_MUL } },
    { "9: mux: any selector", "xyxx0", 64, { KIND_MUX } },
    { "9: mux: another b", "x1yx0", 64, { KIND_MUX } },
    { "9: mux: another c", "x1xy0", 64, { KIND_MUX } },
    { "9: mux: another width", "x1yy0", 64, { KIND_MUX } },
    { "9: comparisons of any two", "1xy10", 64, COMPARISONS },
    { "9: comparisons of any width", "xyy10", 64, COMPARISONS },
    { "9: shifts of another a", "xy110", 64, SHIFTS },
    { "9: shifts by any places", "xx11k", 64 * 65 / 2, SHIFTS },
    { "9: shifts by w places and more", "xx11o", 0, SHIFTS },
    { "9: shifts by places far beyond", "xx11p", 6 * 64, SHIFTS },
    { "9: shifts by up to 2^64 - 1 places", "xx11n", 0, SHIFTS },
    { "9: shifts by places far below 2^64", "xx11m", 6 * 64, SHIFTS }
};

static uint64_t value(char letter, const unsigned *xyz)
{
    uint64_t z = xyz[2];

    switch (letter) {
    case 'k':
        return z - 1;
    case 'o':
        return xyz[0] + z - 1;
    case 'p':
        return (uint64_t)64 << (z - 1);
    case 'n':
        return 0 - z;
    case 'm':
        return 0 - ((uint64_t)64 << (z - 1));
    case '*':
        return 64;
    default:
        return letter >= 'x' ? xyz[letter - 'x'] : (uint64_t)(letter - '0');
    }
}

/* Whether such a record is accepted; it must be 9 otherwise, and 15 for a
   multiplier whose widths fit. */
static unsigned long fits(uint8_t kind, const char *letters,
                          const unsigned *xyz)
{
    unsigned widths[4], refusal;
    uint64_t answer;
    int i;

    for (i = 0; i < 4; i++)
        widths[i] = (unsigned)value(letters[i], xyz);
    reader_make(&net, kind, widths, value(letters[4], xyz));
    answer = known_call(&check_operation, &net).answer;
    if (answer == net.count)
        return 1;
    refusal = kind == KIND_MUL && widths[1] == widths[0]
        && widths[2] == widths[0] ? 15 : 9;
    demand_answer(answer, refused_answer(refusal, READER));
    return 0;
}

static void try_grid(const struct grid *grid, uint8_t kind)
{
    unsigned last_y = strchr(grid->letters, 'y') == NULL ? 1 : 64;
    unsigned last_z = strpbrk(grid->letters, "zkopnm") == NULL ? 1 : 64;
    unsigned long accepted = 0;
    unsigned xyz[3];

    for (xyz[0] = 1; xyz[0] <= 64; xyz[0]++)
        for (xyz[1] = 1; xyz[1] <= last_y; xyz[1]++)
            for (xyz[2] = 1; xyz[2] <= last_z; xyz[2]++)
                accepted += fits(kind, grid->letters, xyz);
    if (accepted != grid->accepted && test_fail())
        printf("      kind %u: accepted %lu instead of %lu\n", kind, accepted,
               grid->accepted);
}

static void every_width_rule(void)
{
    size_t i;
    int j;

    for (i = 0; i < sizeof grids / sizeof *grids; i++) {
        test_begin(grids[i].name);
        for (j = 0; grids[i].kinds[j] != 0; j++)
            try_grid(&grids[i], grids[i].kinds[j]);
        test_end();
    }
}

void check_rules(void)
{
    every_value("2: every other value of byte 0", 0, 1, 2);
    every_value("2: every other value of byte 1", 1, 1, 2);
    every_value("2: every other value of byte 2", 2, 1, 2);
    every_value("2: every other value of byte 5", 5, 1, 2);
    every_value("3: every version but 1", 3, 2, 3);
    every_value("4: every count above 2,048, and 5 below", 6, 2, 4);
    every_length();
    first_wins();
    reading_ahead();
    check_records();
    every_width_rule();
}
