/* Tries every byte of a trimmed file, and other calls on it and its source.
   Assumes an accepted file; a byte of a mask lies over one of its keep word. */

#include <string.h>

#include "../../include/pcn.h"
#include "../harness/operations.h"
#include "../harness/words.h"
#include "../masks/closed.h"

enum { KEEP_AT = 16, LIST = 1 };

/* What must come of the file, or what other calls of the library make of it or
   of its trimmed one. */
static uint8_t other_list[FILE_ROOM];
static uint8_t other_destination[FILE_ROOM];

/* All but the keep words is the file's, and they are cut to the masks. */
static const char *bytes_fault(const struct argument *file,
                               const uint8_t *mask, const uint8_t *trimmed)
{
    size_t at, i;

    memcpy(other_destination, file->bytes, file->length);
    for (at = HEADER_BYTES; at < file->length; at += RECORD_BYTES)
        for (i = 0; i < 8; i++)
            other_destination[at + KEEP_AT + i] &= *mask++;
    return memcmp(other_destination, trimmed, file->length) == 0 ? NULL
        : "the destination is not the file with keep words cut to the masks";
}

/* What pcn_check and pcn_masks say of the file, or of the trimmed one. */
static const char *others_fault(const struct argument *file,
                                const struct argument *list, uint64_t answer)
{
    if (pcn_check(file->bytes, file->length) != list->length / 8)
        return "pcn_check does not accept it with this count";
    if (pcn_masks(file->bytes, file->length, other_list, list->length)
        != answer)
        return "the tally is not that of pcn_masks";
    if (memcmp(other_list, list->bytes, list->length) != 0)
        return "the mask list is not that of pcn_masks";
    return NULL;
}

/* A bit outside D asks for nothing, so the masks of the trimmed file are the
   same ones, and there is nothing more to clear. */
static const char *again_fault(const struct argument *trimmed,
                               const struct argument *list, uint64_t answer)
{
    if (pcn_trim(trimmed->bytes, trimmed->length, other_list, list->length,
                 other_destination, trimmed->length) != answer)
        return "trimmed again, the tally is another";
    if (memcmp(other_list, list->bytes, list->length) != 0)
        return "trimmed again, the masks are others";
    if (memcmp(other_destination, trimmed->bytes, trimmed->length) != 0)
        return "trimmed again, the file is another";
    return NULL;
}

const char *judge_trim(const struct lent *before, const struct lent *after,
                       uint64_t answer)
{
    const struct argument *file = &before->of[0];
    const struct argument *list = &after->of[1];
    const struct argument *trimmed = &after->of[2];
    const char *fault = judge_masks(before, after, answer);

    if (fault == NULL)
        fault = bytes_fault(file, list->bytes, trimmed->bytes);
    if (fault == NULL)
        fault = others_fault(file, list, answer);
    if (fault == NULL)
        fault = others_fault(trimmed, list, answer);
    if (fault == NULL)
        fault = again_fault(trimmed, list, answer);
    return fault;
}

/* A list that meets the rules has at least the smallest masks. */
static const char *smaller_fault(const struct argument *file,
                                 const struct argument *list)
{
    size_t i;

    if (pcn_masks(file->bytes, file->length, other_list, list->length) >> 63)
        return "pcn_masks does not accept the file";
    for (i = 0; i < list->length; i++)
        if ((other_list[i] & ~list->bytes[i]) != 0)
            return "an accepted list lacks a bit of the smallest masks";
    return NULL;
}

/* A bit outside the list is one that the smallest masks have not either, so
   these masks, which the other list holds, are those of the file written. */
static const char *written_fault(const struct argument *written,
                                 const struct argument *list)
{
    static uint8_t masks[8 * COUNT_LIMIT];

    if (pcn_check(written->bytes, written->length) != list->length / 8)
        return "pcn_check does not accept the file written";
    pcn_masks(written->bytes, written->length, masks, list->length);
    return memcmp(masks, other_list, list->length) == 0 ? NULL
        : "the file written has not the masks of its source";
}

/* With the same list there is nothing more to clear in the file written. */
static const char *by_again_fault(const struct argument *written,
                                  const struct lent *lent, uint64_t answer)
{
    if (pcn_trim_by(written->bytes, written->length, WORDS_OF(lent, LIST),
                    other_destination, written->length) != answer)
        return "trimmed again by the same list, the answer is another";
    return memcmp(other_destination, written->bytes, written->length) == 0
        ? NULL : "trimmed again by the same list, the file is another";
}

const char *judge_trim_by(const struct lent *before, const struct lent *after,
                          uint64_t answer)
{
    const struct argument *file = &before->of[0];
    const struct argument *list = &before->of[LIST];
    const struct argument *written = &after->of[2];
    const uint64_t *masks = words_of(before, LIST);
    const char *fault;

    if (lowest_fault(file->bytes, masks) != list->length / 8)
        return "the list breaks a width or a care rule";
    if (answer != tally_of(file->bytes, masks))
        return "the tally does not count the widths and the list's ones";
    fault = bytes_fault(file, list->bytes, written->bytes);
    if (fault == NULL)
        fault = smaller_fault(file, list);
    if (fault == NULL)
        fault = written_fault(written, list);
    if (fault == NULL)
        fault = by_again_fault(written, before, answer);
    return fault;
}

const char *judge_list(const struct lent *before, const struct lent *after,
                       uint64_t answer)
{
    uint32_t lowest;

    (void)after;
    if (PCN_REFUSAL(answer) != PCN_BAD_MASK)
        return NULL;
    lowest = lowest_fault(before->of[0].bytes, words_of(before, LIST));
    if (lowest == before->of[LIST].length / 8)
        return "the list breaks no width and no care rule";
    return lowest == PCN_RECORD(answer) ? NULL
        : "14 does not name the lowest record that it applies to";
}
