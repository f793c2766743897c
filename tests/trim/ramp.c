/* The ramp, trimmed in one step and in two, with its faults mended in turn.
   Assumes that all is written out, so that a slip in the tests' own reader and
   writer shows. */

#include <string.h>

#include "../../include/pcn.h"
#include "../harness/examples.h"
#include "../harness/report.h"
#include "../harness/trial.h"
#include "parts.h"

enum { RECORDS = 7, LIST_BYTES = 8 * RECORDS };

/* The ramp with a width of 0, a kind that there is not and an operand too many
   in three of its records, of which so many are mended. */
static void write_ramp(uint8_t *file, unsigned mended)
{
    static const uint8_t faults[3][2] = { { 33, 0 }, { 80, 19 }, { 132, 1 } };

    memcpy(file, ramp_bytes, RAMP_BYTES);
    for (; mended < 3; mended++)
        file[faults[mended][0]] = faults[mended][1];
}

/* Nothing was written, or all: of each record, bytes 18 to 23 are cleared. */
static void demand_destination(int done, const uint8_t *destination)
{
    size_t i;

    for (i = 0; i < RAMP_BYTES; i++)
        if (destination[i] != (!done ? 0x99
                               : i >= 8 && (i - 8) % 24 >= 18 ? 0
                               : ramp_bytes[i]))
            test_fail();
    if (destination[RAMP_BYTES] != 0x99)
        test_fail();
}

static void demand_list(int done, const uint8_t *list)
{
    size_t i;

    for (i = 0; i < LIST_BYTES; i++)
        if (list[i] != (!done ? 0x99 : i % 8 < 2 ? 255 : 0))
            test_fail();
}

/* Then a list that is too short and a destination that is too long. */
static void in_one_step(void)
{
    static const uint64_t answers[] = {
        0x8000000700000001u, 0x8000000600000003u, 0x8000000a00000005u,
        0x8000000b00000000u, 0x8000000d00000000u, 0x000000c000000070u
    };
    uint8_t file[RAMP_BYTES], list[LIST_BYTES], destination[RAMP_BYTES + 1];
    unsigned mended;

    test_begin("example: ramp byte by byte, its five faults mended in turn");
    memset(list, 0x99, sizeof list);
    memset(destination, 0x99, sizeof destination);
    for (mended = 0; mended <= 5; mended++) {
        write_ramp(file, mended);
        demand_answer(pcn_trim(file, RAMP_BYTES, list,
                               LIST_BYTES - (mended < 4), destination,
                               RAMP_BYTES + (mended < 5)),
                      answers[mended]);
        demand_list(mended == 5, list);
        demand_destination(mended == 5, destination);
    }
    test_end();
}

/* Then the two lengths again, and a list in which the sum lacks a bit, the
   extract has one outside its width, and the output lacks one. */
static void by_a_list(void)
{
    static const uint64_t answers[] = {
        0x8000000700000001u, 0x8000000600000003u, 0x8000000a00000005u,
        0x8000000b00000000u, 0x8000000d00000000u, 0x8000000e00000004u,
        0x8000000e00000005u, 0x8000000e00000006u, 0x000000c000000070u
    };
    static const uint64_t faulty[3] = { 0x7fff, 0x1ffff, 0xfffe };
    uint8_t file[RAMP_BYTES], destination[RAMP_BYTES + 1];
    uint64_t list[RECORDS];
    unsigned mended, i;

    test_begin("example: ramp by a list, its eight faults mended in turn");
    memset(destination, 0x99, sizeof destination);
    for (mended = 0; mended <= 8; mended++) {
        write_ramp(file, mended);
        for (i = 0; i < RECORDS; i++)
            list[i] = i >= 4 && i + 2 > mended ? faulty[i - 4] : 0xffff;
        demand_answer(pcn_trim_by(file, RAMP_BYTES, list,
                                  RECORDS - (mended < 4), destination,
                                  RAMP_BYTES + (mended < 5)),
                      answers[mended]);
        demand_destination(mended == 8, destination);
    }
    test_end();
}

void trim_ramp(void)
{
    in_one_step();
    by_a_list();
}
