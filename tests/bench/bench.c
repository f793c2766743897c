/* Times the operations of the library beside plain C, in one process.
   Assumes a quiet machine; it prints times and demands equal results only. */

#include "../harness/operations.h"
#include "plain.h"
#include "rows.h"

static uint64_t check_in_c(const struct lent *lent)
{
    return plain_check(BYTES_OF(lent, 0));
}

static uint64_t masks_in_c(const struct lent *lent)
{
    return plain_masks(BYTES_OF(lent, 0), BYTES_OF(lent, 1));
}

static uint64_t trim_in_c(const struct lent *lent)
{
    return plain_trim(BYTES_OF(lent, 0), BYTES_OF(lent, 1),
                      BYTES_OF(lent, 2));
}

static uint64_t trim_by_in_c(const struct lent *lent)
{
    return plain_trim_by(BYTES_OF(lent, 0), WORDS_OF(lent, 1),
                         BYTES_OF(lent, 2));
}

static uint64_t compact_in_c(const struct lent *lent)
{
    return plain_compact(BYTES_OF(lent, 0), WORDS_OF(lent, 1),
                         BYTES_OF(lent, 2));
}

static uint64_t start_in_c(const struct lent *lent)
{
    return plain_start(BYTES_OF(lent, 0), WORDS_OF(lent, 1));
}

static uint64_t cycle_in_c(const struct lent *lent)
{
    return plain_cycle(BYTES_OF(lent, 0), WORDS_OF(lent, 1),
                       WORDS_OF(lent, 2));
}

static uint64_t change_over_in_c(const struct lent *lent)
{
    return plain_change_over(BYTES_OF(lent, 0), WORDS_OF(lent, 1),
                             WORDS_OF(lent, 2), WORDS_OF(lent, 3));
}

static const struct row rows[] = {
    { "check, all kinds", &check_operation, check_in_c, all_kinds,
      { 64, 256, 1024, 2048 } },
    { "masks, feedback", &masks_operation, masks_in_c, feedback,
      { 64, 256, 1024, 2048 } },
    { "masks, combinational", &masks_operation, masks_in_c, combinational,
      { 64, 256, 1024, 2048 } },
    { "masks, words cut with constants", &masks_operation, masks_in_c,
      cut_words, { 64, 256, 1024, 2048 } },
    { "masks, chain of registers", &masks_operation, masks_in_c, chain,
      { 256, 1024, 2048, 0 } },
    { "masks, ring of registers", &masks_operation, masks_in_c, ring,
      { 256, 1024, 2048, 0 } },
    { "trim, feedback", &trim_operation, trim_in_c, feedback,
      { 64, 256, 1024, 2048 } },
    { "trim, combinational", &trim_operation, trim_in_c, combinational,
      { 64, 256, 1024, 2048 } },
    { "trim_by, feedback, smallest masks", &trim_by_operation, trim_by_in_c,
      feedback_smallest, { 64, 256, 1024, 2048 } },
    { "trim_by, feedback, all bits", &trim_by_operation, trim_by_in_c,
      feedback_all_bits, { 64, 256, 1024, 2048 } },
    { "trim_by, combinational, smallest masks", &trim_by_operation,
      trim_by_in_c, combinational_smallest, { 64, 256, 1024, 2048 } },
    { "trim_by, combinational, all bits", &trim_by_operation, trim_by_in_c,
      combinational_all_bits, { 64, 256, 1024, 2048 } },
    { "compact, feedback", &compact_operation, compact_in_c, feedback,
      { 64, 256, 1024, 2048 } },
    { "compact, combinational", &compact_operation, compact_in_c,
      combinational, { 64, 256, 1024, 2048 } },
    { "compact, words cut with constants", &compact_operation, compact_in_c,
      cut_words, { 64, 256, 1024, 2048 } },
    { "cycle, no multipliers", &cycle_operation, cycle_in_c, clocked,
      { 64, 256, 1024, 2048 } },
    { "cycle, all kinds", &cycle_operation, cycle_in_c, clocked_with_mul,
      { 64, 256, 1024, 2048 } },
    { "cycle, multipliers", &cycle_operation, cycle_in_c, multipliers,
      { 64, 256, 1024, 2048 } },
    { "cycle, multipliers of all widths", &cycle_operation, cycle_in_c,
      multipliers_of_all_widths, { 64, 256, 1024, 2048 } },
    { "start", &start_operation, start_in_c, clocked_with_mul,
      { 64, 256, 1024, 2048 } },
    { "change_over, feedback", &change_over_operation, change_over_in_c,
      feedback_in_service, { 64, 256, 1024, 2048 } },
    { "change_over, combinational", &change_over_operation, change_over_in_c,
      combinational_in_service, { 64, 256, 1024, 2048 } },
    { "change_over, words cut with constants", &change_over_operation,
      change_over_in_c, cut_words_in_service, { 64, 256, 1024, 2048 } }
};

int main(int argc, char **argv)
{
    return run_rows(argc, argv, rows, sizeof rows / sizeof *rows);
}
