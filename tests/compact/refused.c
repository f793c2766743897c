/* Calls that are refused: for a length, for two, and for the file first.
   Assumes that tests/harness tries all other lengths and rules. */

#include "../harness/known.h"
#include "../harness/operations.h"
#include "../harness/report.h"
#include "../harness/trial.h"
#include "parts.h"

/* The sum and the constant go, so that two records are left of four. */
static const struct worked design = {
    NULL, DESIGN(CONSTANT(8, 1), INPUT(8), OF_TWO(ADD, 8, 0, 1),
                 OUTPUT(8, 1, 0xff)), { 0 }
};

/* The place in the file. */
enum { KIND_OF_SUM = HEADER_BYTES + 2 * RECORD_BYTES };

/* By how many words and bytes the lengths are wrong, the kind of the sum, and
   what the call is then refused by. */
static const struct {
    const char *name;
    int words, bytes;
    uint8_t kind;
    unsigned refusal;
    uint32_t record;
} calls[] = {
    { "refused: a mask list with a word too few", -1, 0, KIND_ADD, 11, 0 },
    { "refused: a mask list with a word too many", 1, 0, KIND_ADD, 11, 0 },
    { "refused: a mask list without a word", -4, 0, KIND_ADD, 11, 0 },
    { "refused: a mask list for the new file", -2, 0, KIND_ADD, 11, 0 },
    { "refused: a destination with a byte too few", 0, -1, KIND_ADD, 13, 0 },
    { "refused: a destination with a byte too many", 0, 1, KIND_ADD, 13, 0 },
    { "refused: a destination for the new file alone", 0, -2 * RECORD_BYTES,
      KIND_ADD, 13, 0 },
    { "refused: a destination without a byte", 0,
      -HEADER_BYTES - 4 * RECORD_BYTES, KIND_ADD, 13, 0 },
    { "refused: 11 goes before 13", 1, -1, KIND_ADD, 11, 0 },
    { "refused: the file goes before both", 1, -1, KIND_COUNT, 6, 2 },
    { "refused: a file with lengths that are right", 0, 0, KIND_COUNT, 6, 2 }
};

void compact_refused(void)
{
    unsigned i;

    for (i = 0; i < sizeof calls / sizeof *calls; i++) {
        struct lent lent = lend_worked(&compact_operation, &design);

        test_begin(calls[i].name);
        lent.of[0].bytes[KIND_OF_SUM] = calls[i].kind;
        lent.of[1].length += 8 * (size_t)calls[i].words;
        lent.of[2].length += (size_t)calls[i].bytes;
        expect_refused(&compact_operation, &lent, calls[i].refusal,
                       calls[i].record);
        test_end();
    }
}
