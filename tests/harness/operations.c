/* The description of each operation; 01 has the lengths and the refusals.
   Assumes libpcn.a on the one side and tests/model on the other. */

#include "operations.h"

#include "../../include/pcn.h"
#include "../clock/settled.h"
#include "../model/model.h"
#include "lists.h"
#include "words.h"

/* The library's function and the model's of this name, with the arguments in
   parentheses. */
#define BOTH(name, arguments) \
    static uint64_t library_##name(const struct lent *lent) \
    { \
        return pcn_##name arguments; \
    } \
    static uint64_t plain_##name(const struct lent *lent) \
    { \
        return model_##name arguments; \
    }

BOTH(check, (BYTES_OF(lent, 0)))
BOTH(masks, (BYTES_OF(lent, 0), BYTES_OF(lent, 1)))
BOTH(trim, (BYTES_OF(lent, 0), BYTES_OF(lent, 1), BYTES_OF(lent, 2)))
BOTH(trim_by, (BYTES_OF(lent, 0), WORDS_OF(lent, 1), BYTES_OF(lent, 2)))
BOTH(compact, (BYTES_OF(lent, 0), WORDS_OF(lent, 1), BYTES_OF(lent, 2)))
BOTH(start, (BYTES_OF(lent, 0), WORDS_OF(lent, 1)))
BOTH(cycle, (BYTES_OF(lent, 0), WORDS_OF(lent, 1), WORDS_OF(lent, 2)))
BOTH(change_over, (BYTES_OF(lent, 0), WORDS_OF(lent, 1), WORDS_OF(lent, 2),
                   WORDS_OF(lent, 3)))

const struct operation check_operation = {
    "check", library_check, plain_check,
    { { "file", A_FILE, 0, 0, 0 } },
    REFUSALS_TO(10), NULL, NULL, NULL, NULL
};

const struct operation masks_operation = {
    "masks", library_masks, plain_masks,
    { { "file", A_FILE, 0, 0, 0 },
      { "mask list", WRITTEN_BYTES, WORD_A_RECORD, 0, 11 } },
    REFUSALS_TO(11), NULL, NULL, judge_masks, NULL
};

const struct operation trim_operation = {
    "trim", library_trim, plain_trim,
    { { "file", A_FILE, 0, 0, 0 },
      { "mask list", WRITTEN_BYTES, WORD_A_RECORD, 0, 11 },
      { "destination", WRITTEN_BYTES, LENGTH_OF_FILE, 0, 13 } },
    REFUSALS_TO(11) | REFUSAL(13), NULL, NULL, judge_trim, NULL
};

const struct operation trim_by_operation = {
    "trim_by", library_trim_by, plain_trim_by,
    { { "file", A_FILE, 0, 0, 0 },
      { "mask list", READ_WORDS, WORD_A_RECORD, 0, 11 },
      { "destination", WRITTEN_BYTES, LENGTH_OF_FILE, 0, 13 } },
    REFUSALS_TO(11) | REFUSAL(13) | REFUSAL(14), NULL, prepare_list,
    judge_trim_by, judge_list
};

const struct operation compact_operation = {
    "compact", library_compact, plain_compact,
    { { "file", A_FILE, 0, 0, 0 },
      { "mask list", WRITTEN_WORDS, WORD_A_RECORD, 0, 11 },
      { "destination", WRITTEN_BYTES, LENGTH_OF_FILE, 0, 13 } },
    REFUSALS_TO(11) | REFUSAL(13), NULL, NULL, judge_compact, NULL
};

const struct operation start_operation = {
    "start", library_start, plain_start,
    { { "file", A_FILE, 0, 0, 0 },
      { "board list", WRITTEN_WORDS, WORD_A_RECORD, 0, 11 } },
    REFUSALS_TO(11), NULL, NULL, judge_start, NULL
};

const struct operation cycle_operation = {
    "cycle", library_cycle, plain_cycle,
    { { "file", A_FILE, 0, 0, 0 },
      { "board list", CHANGED_WORDS, WORD_A_RECORD, 0, 11 },
      { "next list", WRITTEN_WORDS, WORD_A_RECORD, 0, 11 } },
    REFUSALS_TO(12), NULL, prepare_board, judge_cycle, NULL
};

const struct operation change_over_operation = {
    "change_over", library_change_over, plain_change_over,
    { { "file", A_FILE, 0, 0, 0 },
      { "mask list", WRITTEN_WORDS, WORD_A_RECORD, 0, 11 },
      { "board list", READ_WORDS, WORD_A_RECORD, 0, 11 },
      { "new list", WRITTEN_WORDS, WORD_A_RECORD, 0, 11 } },
    REFUSALS_TO(12), NULL, prepare_old_board, judge_change_over, NULL
};

const struct operation *const operations[OPERATIONS] = {
    &check_operation, &masks_operation, &trim_operation, &trim_by_operation,
    &compact_operation, &start_operation, &cycle_operation,
    &change_over_operation
};
