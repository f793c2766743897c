/* The meaning of every kind on one record, worked out by hand.
   Assumes inputs that hold the operands' words. */

#include "../harness/known.h"
#include "parts.h"

#define ALL 0xffffffffffffffffu
#define TOP 0x8000000000000000u

/* A record and three inputs of these widths, of which it reads as many as its
   kind does; the keep word, which is cut to the width; the inputs' words, and
   the value that it must have. */
struct meaning {
    const char *name;
    uint8_t kind;
    unsigned widths[4];
    uint64_t k, keep, words[3], value;
};

#define ONE(name, kind, w, of, k, keep, a, value) \
    { "meaning: " name, KIND_##kind, { w, of, 1, 1 }, k, keep, { a, 0, 0 }, \
      value }
#define TWO(name, kind, w, a_w, b_w, keep, a, b, value) \
    { "meaning: " name, KIND_##kind, { w, a_w, b_w, 1 }, 0, keep, \
      { a, b, 0 }, value }
#define JOIN(name, a_w, b_w, keep, a, b, value) \
    TWO("concat " name, CONCAT, a_w + b_w, a_w, b_w, keep, a, b, value)
#define ALIKE(name, kind, w, keep, a, b, value) \
    TWO(name, kind, w, w, w, keep, a, b, value)
#define COMPARE(name, kind, of, keep, a, b, value) \
    TWO(name, kind, 1, of, of, keep, a, b, value)
#define SHIFT(name, kind, w, k, keep, a, value) \
    ONE(name, kind, w, w, k, keep, a, value)
#define CHOOSE(name, w, keep, a, b, c, value) \
    { "meaning: mux " name, KIND_MUX, { w, 1, w, w }, 0, keep, { a, b, c }, \
      value }

static const struct meaning meanings[] = {
    ONE("constant", CONSTANT, 8, 1, 0xa5, ALL, 0, 0xa5),
    ONE("constant of 64 bits", CONSTANT, 64, 1, ALL, ALL, 0, ALL),
    ONE("constant, cut", CONSTANT, 8, 1, 0xa5, 0x3c, 0, 0x24),
    ONE("output", OUTPUT, 8, 8, 0, ALL, 0xc3, 0xc3),
    ONE("output of 64 bits", OUTPUT, 64, 64, 0, ALL, ALL - 1, ALL - 1),
    ONE("output, cut", OUTPUT, 8, 8, 0, 0x81, 0xc3, 0x81),

    ONE("extract of 4 at 60 from 64", EXTRACT, 4, 64, 60, ALL,
        0xb000000000000000u, 0xb),
    ONE("extract of all 64", EXTRACT, 64, 64, 0, ALL, 0x123456789abcdef0u,
        0x123456789abcdef0u),
    ONE("extract drops what is above", EXTRACT, 4, 16, 4, ALL, 0xfafe, 0xf),
    ONE("extract drops what is below", EXTRACT, 8, 16, 8, ALL, 0x12ff, 0x12),
    ONE("extract, cut", EXTRACT, 8, 16, 4, 0x0f, 0xabcd, 0x0c),

    JOIN("of 4 and 8", 4, 8, ALL, 0xa, 0x5b, 0xa5b),
    JOIN("of 1 and 63", 1, 63, ALL, 1, 2, TOP + 2),
    JOIN("of 32 and 32", 32, 32, ALL, 0x12345678u, 0x9abcdef0u,
         0x123456789abcdef0u),
    JOIN("cut", 4, 8, 0x30c, 0xf, 0xff, 0x30c),

    ALIKE("and", AND, 4, ALL, 0xc, 0xa, 0x8),
    ALIKE("or", OR, 4, ALL, 0xc, 0xa, 0xe),
    ALIKE("xor", XOR, 4, ALL, 0xc, 0xa, 0x6),
    ALIKE("and, cut", AND, 4, 0x7, 0xf, 0xf, 0x7),
    ALIKE("or, cut", OR, 4, 0xb, 0xc, 0xa, 0xa),
    ALIKE("xor, cut", XOR, 4, 0x2, 0xc, 0xa, 0x2),

    CHOOSE("with 1", 8, ALL, 1, 0x12, 0x34, 0x12),
    CHOOSE("with 0", 8, ALL, 0, 0x12, 0x34, 0x34),
    CHOOSE("of 64 bits with 1", 64, ALL, 1, ALL, TOP, ALL),
    CHOOSE("cut", 8, 0x1c, 0, 0xff, 0x14, 0x14),

    ALIKE("add", ADD, 8, ALL, 100, 55, 155),
    ALIKE("add, carry dropped at 8", ADD, 8, ALL, 200, 100, 44),
    ALIKE("add, carry dropped at 64", ADD, 64, ALL, ALL, 2, 1),
    ALIKE("add, carry into bit 63", ADD, 64, ALL, ~TOP, 1, TOP),
    ALIKE("add, cut after the sum", ADD, 8, 0x10, 0x0f, 1, 0x10),
    ALIKE("sub", SUB, 8, ALL, 100, 55, 45),
    ALIKE("0 - 1 at width 8 is 255", SUB, 8, ALL, 0, 1, 255),
    ALIKE("sub below 0 at 64", SUB, 64, ALL, 0, 1, ALL),
    ALIKE("sub, cut after the difference", SUB, 8, 0xf0, 0x10, 1, 0),
    ALIKE("mul", MUL, 8, ALL, 12, 11, 132),
    ALIKE("mul, cut to 8 bits", MUL, 8, ALL, 255, 255, 1),
    ALIKE("mul of 1 bit", MUL, 1, ALL, 1, 1, 1),
    ALIKE("mul, cut to 31 bits", MUL, 31, ALL, 0x7fffffff, 0x7ffffffe, 2),
    ALIKE("mul, cut to 32 bits", MUL, 32, ALL, 0xffffffffu, 0xfffffffeu, 2),
    ALIKE("mul of all ones at 32", MUL, 32, ALL, 0xffffffffu, 0xffffffffu, 1),
    ALIKE("mul into bit 31", MUL, 32, ALL, 0xffff, 0xffff, 0xfffe0001u),
    ALIKE("hex 10001 squared at 32 is 131073", MUL, 32, ALL, 0x10001, 0x10001,
          131073),
    ALIKE("mul of bit 31 by itself", MUL, 32, ALL, 0x80000000u, 0x80000000u,
          0),
    ALIKE("mul of bit 31 by all ones", MUL, 32, ALL, 0x80000000u, 0xffffffffu,
          0x80000000u),
    ALIKE("mul of all ones by bit 31", MUL, 32, ALL, 0xffffffffu, 0x80000000u,
          0x80000000u),
    ALIKE("mul of 0 by all ones", MUL, 32, ALL, 0, 0xffffffffu, 0),
    ALIKE("mul of all ones by 0", MUL, 32, ALL, 0xffffffffu, 0, 0),
    ALIKE("mul of 1 by a word", MUL, 32, ALL, 1, 0x89abcdefu, 0x89abcdefu),
    ALIKE("mul of a word by 1", MUL, 32, ALL, 0x89abcdefu, 1, 0x89abcdefu),
    ALIKE("mul of 3 by a word", MUL, 32, ALL, 3, 0x89abcdefu, 0x9d0369cdu),
    ALIKE("mul of a word by 3", MUL, 32, ALL, 0x89abcdefu, 3, 0x9d0369cdu),
    ALIKE("mul, cut after the product", MUL, 8, 0x40, 9, 9, 0x40),

    COMPARE("equal", EQUAL, 8, 1, 0x5a, 0x5a, 1),
    COMPARE("not equal in the top bit", EQUAL, 8, 1, 0x5a, 0xda, 0),
    COMPARE("not equal in bit 63", EQUAL, 64, 1, TOP, 0, 0),
    COMPARE("not equal in bit 32", EQUAL, 64, 1, 0x100000000u, 0, 0),
    COMPARE("equal, nothing kept", EQUAL, 8, 0, 1, 1, 0),
    COMPARE("below", BELOW, 8, 1, 3, 4, 1),
    COMPARE("below: equal ones are not", BELOW, 8, 1, 4, 4, 0),
    COMPARE("below: a greater one is not", BELOW, 8, 1, 5, 4, 0),
    COMPARE("below has no signs at 8", BELOW, 8, 1, 0x7f, 0x80, 1),
    COMPARE("below has no signs at 64", BELOW, 64, 1, ~TOP, TOP, 1),
    COMPARE("below: the most is not below 0", BELOW, 64, 1, ALL, 0, 0),
    COMPARE("below, nothing kept", BELOW, 8, 0, 1, 2, 0),

    SHIFT("left shift by 3", LEFT_SHIFT, 8, 3, ALL, 0x35, 0xa8),
    SHIFT("left shift by 0", LEFT_SHIFT, 8, 0, ALL, 0xa5, 0xa5),
    SHIFT("left shift by 7 of 8", LEFT_SHIFT, 8, 7, ALL, 0x7f, 0x80),
    SHIFT("left shift drops all", LEFT_SHIFT, 8, 7, ALL, 0xfe, 0),
    SHIFT("left shift of 1 bit", LEFT_SHIFT, 1, 0, ALL, 1, 1),
    SHIFT("left shift of 63 bits", LEFT_SHIFT, 63, 1, ALL, ~TOP, ~TOP - 1),
    SHIFT("left shift of 64 by 0", LEFT_SHIFT, 64, 0, ALL, ALL, ALL),
    SHIFT("left shift of 64 by 32", LEFT_SHIFT, 64, 32, ALL,
          0x123456789abcdef0u, 0x9abcdef000000000u),
    SHIFT("left shift of 64 by 63", LEFT_SHIFT, 64, 63, ALL, 3, TOP),
    SHIFT("left shift, cut", LEFT_SHIFT, 8, 2, 0x3d, 0x1f, 0x3c),

    SHIFT("right shift by 3", RIGHT_SHIFT, 8, 3, ALL, 0xb5, 0x16),
    SHIFT("right shift by 0", RIGHT_SHIFT, 8, 0, ALL, 0xa5, 0xa5),
    SHIFT("right shift by 7 of 8", RIGHT_SHIFT, 8, 7, ALL, 0x80, 1),
    SHIFT("right shift drops all", RIGHT_SHIFT, 8, 7, ALL, 0x7f, 0),
    SHIFT("right shift of 1 bit", RIGHT_SHIFT, 1, 0, ALL, 1, 1),
    SHIFT("right shift of 64 by 0", RIGHT_SHIFT, 64, 0, ALL, TOP + 1, TOP + 1),
    SHIFT("right shift of 64 by 4", RIGHT_SHIFT, 64, 4, ALL, TOP + 0x1f,
          0x0800000000000001u),
    SHIFT("right shift of 64 by 63", RIGHT_SHIFT, 64, 63, ALL, ALL, 1),
    SHIFT("right shift, cut", RIGHT_SHIFT, 8, 2, 0x0f, 0xd4, 0x05),

    SHIFT("-75 by 3 with its sign is -10", ARITHMETIC_SHIFT, 8, 3, ALL, 0xb5,
          0xf6),
    SHIFT("53 by 3 with its sign is 6", ARITHMETIC_SHIFT, 8, 3, ALL, 53, 6),
    SHIFT("-1 by 4 with its sign is -1", ARITHMETIC_SHIFT, 8, 4, ALL, 0xff,
          0xff),
    SHIFT("-128 by 0 with its sign", ARITHMETIC_SHIFT, 8, 0, ALL, 0x80, 0x80),
    SHIFT("-128 by 7 with its sign is -1", ARITHMETIC_SHIFT, 8, 7, ALL, 0x80,
          0xff),
    SHIFT("127 by 7 with its sign is 0", ARITHMETIC_SHIFT, 8, 7, ALL, 0x7f, 0),
    SHIFT("a sign at bit 11", ARITHMETIC_SHIFT, 12, 1, ALL, 0x802, 0xc01),
    SHIFT("a sign of 1 bit", ARITHMETIC_SHIFT, 1, 0, ALL, 1, 1),
    SHIFT("a sign at bit 63, by 0", ARITHMETIC_SHIFT, 64, 0, ALL, TOP + 1,
          TOP + 1),
    SHIFT("a sign at bit 63, by 4", ARITHMETIC_SHIFT, 64, 4, ALL, TOP + 0x1f,
          0xf800000000000001u),
    SHIFT("a sign at bit 63, by 63", ARITHMETIC_SHIFT, 64, 63, ALL, TOP, ALL),
    SHIFT("no sign at bit 63, by 63", ARITHMETIC_SHIFT, 64, 63, ALL, ~TOP, 0),
    SHIFT("copies of a sign, cut", ARITHMETIC_SHIFT, 8, 4, 0x3c, 0x90, 0x38),

    COMPARE("signed below", SIGNED_BELOW, 8, 1, 3, 4, 1),
    COMPARE("signed below: equal ones are not", SIGNED_BELOW, 8, 1, 4, 4, 0),
    COMPARE("signed below: a greater one is not", SIGNED_BELOW, 8, 1, 5, 4,
            0),
    COMPARE("-1 is below 0", SIGNED_BELOW, 8, 1, 0xff, 0, 1),
    COMPARE("0 is not below -1", SIGNED_BELOW, 8, 1, 0, 0xff, 0),
    COMPARE("-128 is below 127", SIGNED_BELOW, 8, 1, 0x80, 0x7f, 1),
    COMPARE("127 is not below -128", SIGNED_BELOW, 8, 1, 0x7f, 0x80, 0),
    COMPARE("-2 is below -1", SIGNED_BELOW, 8, 1, 0xfe, 0xff, 1),
    COMPARE("-1 is not below -128", SIGNED_BELOW, 8, 1, 0xff, 0x80, 0),
    COMPARE("-128 is not below itself", SIGNED_BELOW, 8, 1, 0x80, 0x80, 0),
    COMPARE("-2^63 is below 0", SIGNED_BELOW, 64, 1, TOP, 0, 1),
    COMPARE("-2^63 is below -1", SIGNED_BELOW, 64, 1, TOP, ALL, 1),
    COMPARE("-1 is below 2^63 - 1", SIGNED_BELOW, 64, 1, ALL, ~TOP, 1),
    COMPARE("2^63 - 1 is not below -2^63", SIGNED_BELOW, 64, 1, ~TOP, TOP, 0),
    COMPARE("of 1 bit, 1 is below 0", SIGNED_BELOW, 1, 1, 1, 0, 1),
    COMPARE("of 1 bit, 0 is not below 1", SIGNED_BELOW, 1, 1, 0, 1, 0),
    COMPARE("signed below, nothing kept", SIGNED_BELOW, 8, 0, 1, 2, 0)
};

void clock_kinds(void)
{
    static const uint64_t nothing[READER + 1];
    static struct netlist net;
    size_t i;

    for (i = 0; i < sizeof meanings / sizeof *meanings; i++) {
        const struct meaning *meaning = &meanings[i];
        struct rng rng = rng_for(6, i);
        uint64_t values[READER + 1];
        struct lent lent;

        test_begin(meaning->name);
        reader_make(&net, meaning->kind, meaning->widths, meaning->k);
        net.records[READER].keep &= meaning->keep;
        lent = lend(&cycle_operation, &rng, &net);
        memcpy(words_of(&lent, BOARD), meaning->words, sizeof meaning->words);
        memcpy(values, meaning->words, sizeof meaning->words);
        values[READER] = meaning->value;
        expect_call(&cycle_operation, &lent, 0);
        demand_words("board list", &lent.of[BOARD], values, READER + 1);
        demand_words("next list", &lent.of[NEXT], nothing, READER + 1);
        test_end();
    }
}
