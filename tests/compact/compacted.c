/* Looks at every byte of a compacted file, and at the bytes behind it.
   Assumes an accepted call; no model is asked. */

#include <string.h>

#include "../../include/pcn.h"
#include "../harness/operations.h"
#include "../harness/words.h"
#include "../masks/closed.h"
#include "survivors.h"

enum { LIST = 1, DESTINATION = 2 };

/* For each record of the new file, in order, its number in the old one. */
static uint32_t old_numbers[COUNT_LIMIT], survivors;

/* Survivors are records of the file, so that it does not become longer. */
static const char *length_fault(uint64_t answer)
{
    uint64_t right = HEADER_BYTES + RECORD_BYTES * (uint64_t)survivors;

    if (answer < right)
        return "the new length lacks an input, an output or what is named";
    return answer == right ? NULL
        : "the new length has room for more than inputs, outputs and what is"
          " named";
}

static const char *emptied_fault(const struct record *now, unsigned width)
{
    if (now->kind != KIND_CONSTANT)
        return "a survivor with mask 0 is no constant";
    if (now->width != width)
        return "a survivor with mask 0 has not its width";
    if (now->operand[0] != 0 || now->operand[1] != 0 || now->operand[2] != 0)
        return "a survivor with mask 0 names a record";
    return now->k == 0 && now->keep == 0 ? NULL
        : "a survivor with mask 0 has a k or a keep word that is not 0";
}

/* Whether the operands are the same records under their new numbers, and the
   unused ones 0. */
static int names_the_same(const struct record *old, const struct record *now)
{
    unsigned used = kind_operands(old->kind), i;

    for (i = 0; i < 3; i++)
        if (i >= used ? now->operand[i] != 0
                      : now->operand[i] >= survivors
                        || old_numbers[now->operand[i]] != old->operand[i])
            return 0;
    return 1;
}

/* What is wrong with a record of the new file, or null. */
static const char *record_fault(const uint8_t *file, const uint64_t *masks,
                                const uint8_t *made, uint32_t number)
{
    struct record old = read_record(file, old_numbers[number]);
    struct record now = read_record(made, number);

    if (is_emptied(file, masks, old_numbers[number]))
        return emptied_fault(&now, old.width);
    if (now.kind != old.kind || now.width != old.width)
        return "a survivor has another kind or width, or another place";
    if (!names_the_same(&old, &now))
        return "a survivor names other records than before";
    if (now.k != old.k)
        return "a survivor has another k";
    return now.keep == (old.keep & masks[old_numbers[number]]) ? NULL
        : "a survivor has not the trimmed keep word";
}

/* The header is that of the old file but for the count. */
static const char *file_fault(const uint8_t *file, const uint64_t *masks,
                              const uint8_t *made)
{
    const char *fault = NULL;
    uint32_t i;

    if (memcmp(made, file, 6) != 0)
        return "the header is another one";
    if (read_16(made + 6) != survivors)
        return "the count in the header is not that of the survivors";
    for (i = 0; i < survivors && fault == NULL; i++)
        fault = record_fault(file, masks, made, i);
    return fault;
}

/* All that a survivor names survives again: a record that was not emptied has
   the same mask as before, and an emptied one names nothing. So a further call
   makes the same file. */
static const char *again_fault(const uint8_t *made, uint64_t length)
{
    static uint64_t list[COUNT_LIMIT];
    static uint8_t destination[HEADER_BYTES + RECORD_BYTES * COUNT_LIMIT];

    if (pcn_check(made, length) != survivors)
        return "pcn_check does not accept the new file with its count";
    if (pcn_compact(made, length, list, survivors, destination, length)
        != length)
        return "compacted again, the length is another";
    return memcmp(destination, made, length) == 0 ? NULL
        : "compacted again, the file is another";
}

const char *judge_compact(const struct lent *before, const struct lent *after,
                          uint64_t answer)
{
    const struct argument *file = &before->of[0];
    const uint8_t *made = after->of[DESTINATION].bytes;
    const uint64_t *masks = words_of(after, LIST);
    const char *fault = least_fault(file->bytes, masks);

    if (fault != NULL)
        return fault;
    survivors = find_survivors(file->bytes, masks, old_numbers);
    fault = length_fault(answer);
    if (fault != NULL)
        return fault;
    if (memcmp(made + answer, before->of[DESTINATION].bytes + answer,
               file->length - answer) != 0)
        return "a byte beyond the new length was touched";
    fault = file_fault(file->bytes, masks, made);
    return fault != NULL ? fault : again_fault(made, answer);
}
