/* Calls that are refused: for a length, for a word, and for the file first.
   Assumes that tests/harness tries all other lengths and rules. */

#include "../harness/known.h"
#include "../harness/operations.h"
#include "../harness/report.h"
#include "../harness/trial.h"
#include "../harness/words.h"
#include "parts.h"

/* The sum and the constant go, so that three records are left of five. */
static const struct worked design = {
    NULL, DESIGN(CONSTANT(8, 1), INPUT(8), OF_TWO(ADD, 8, 0, 1),
                 REGISTER(8, 1, 3), OUTPUT(8, 3, 0xff)), { 0 }
};

/* The place in the file. */
enum { KIND_OF_SUM = HEADER_BYTES + 2 * RECORD_BYTES };

/* By how many words the mask list, the board list and the new list are wrong,
   the bits beyond the width of each word of the board list, the kind of the
   sum, and what the call is then refused by; 0 if it is accepted. */
static const struct {
    const char *name;
    int words[3];
    uint64_t beyond[5];
    uint8_t kind;
    unsigned refusal;
    uint32_t record;
} calls[] = {
    { "refused: a mask list with a word too few", { -1, 0, 0 }, { 0 },
      KIND_ADD, 11, 0 },
    { "refused: a mask list with a word too many", { 1, 0, 0 }, { 0 },
      KIND_ADD, 11, 0 },
    { "refused: a board list with a word too few", { 0, -1, 0 }, { 0 },
      KIND_ADD, 11, 0 },
    { "refused: a board list with a word too many", { 0, 1, 0 }, { 0 },
      KIND_ADD, 11, 0 },
    { "refused: a new list with a word too few", { 0, 0, -1 }, { 0 },
      KIND_ADD, 11, 0 },
    { "refused: a new list with a word too many", { 0, 0, 1 }, { 0 },
      KIND_ADD, 11, 0 },
    { "refused: a new list for the compacted file alone", { 0, 0, -2 }, { 0 },
      KIND_ADD, 11, 0 },
    { "refused: lists for the compacted file alone", { -2, -2, -2 }, { 0 },
      KIND_ADD, 11, 0 },
    { "refused: lists without a word", { -5, -5, -5 }, { 0 }, KIND_ADD, 11,
      0 },
    { "refused: an input's word is too wide", { 0 }, { 0, 0x100 }, KIND_ADD,
      12, 1 },
    { "refused: a register's word is too wide", { 0 },
      { 0, 0, 0, 0x8000000000000000u }, KIND_ADD, 12, 3 },
    { "refused: the lower of two words that are too wide", { 0 },
      { 0, 0x4000, 0, 0x100 }, KIND_ADD, 12, 1 },
    { "refused: records that are no input and no register do not count",
      { 0 }, { 0x100, 0, 0x100, 0x100, 0x100 }, KIND_ADD, 12, 3 },
    { "accepted: words too wide at no input and no register", { 0 },
      { 0x100, 0, 0x100, 0, 0x100 }, KIND_ADD, 0, 0 },
    { "refused: 11 of the mask list goes before 12", { 1, 0, 0 },
      { 0, 0x100 }, KIND_ADD, 11, 0 },
    { "refused: 11 of the board list goes before 12", { 0, 1, 0 },
      { 0, 0x100 }, KIND_ADD, 11, 0 },
    { "refused: 11 of the new list goes before 12", { 0, 0, 1 },
      { 0, 0x100 }, KIND_ADD, 11, 0 },
    { "refused: the file goes before 11 and 12", { 1, -1, 1 }, { 0, 0x100 },
      KIND_COUNT, 6, 2 },
    { "refused: the file goes before 12 alone", { 0 }, { 0, 0x100 },
      KIND_COUNT, 6, 2 }
};

void change_over_refused(void)
{
    unsigned i, j;

    for (i = 0; i < sizeof calls / sizeof *calls; i++) {
        struct lent lent = lend_worked(&change_over_operation, &design);

        test_begin(calls[i].name);
        lent.of[0].bytes[KIND_OF_SUM] = calls[i].kind;
        for (j = 0; j < design.count; j++)
            words_of(&lent, OLD_BOARD)[j] |= calls[i].beyond[j];
        for (j = 0; j < 3; j++)
            lent.of[1 + j].length += 8 * (size_t)calls[i].words[j];
        expect_call(&change_over_operation, &lent, calls[i].refusal == 0 ? 0
                    : refused_answer(calls[i].refusal, calls[i].record));
        test_end();
    }
}
