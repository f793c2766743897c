/* A caller that must compile as C99 and as C++: the header by itself, twice.
   Assumes it is only compiled and linked, never run. */

#include "../../include/pcn.h"
#include "../../include/pcn.h"

/* The bits that are not cared for, after masks and trim, or -1 when a list or
   the destination does not fit and -2 when the file itself is refused. */
long uncared_bits(const uint8_t *file, size_t length, uint64_t *masks,
                  size_t records, uint8_t *destination)
{
    uint64_t answer = pcn_masks(file, length, (uint8_t *)masks, 8 * records);

    if (!PCN_REFUSED(answer))
        answer = pcn_trim(file, length, (uint8_t *)masks, 8 * records,
                          destination, length);
    if (PCN_REFUSED(answer))
        return PCN_REFUSAL(answer) == PCN_BAD_LIST
                    || PCN_REFUSAL(answer) == PCN_BAD_DESTINATION ? -1 : -2;
    return (long)PCN_TALLY_WIDTH(answer) - (long)PCN_TALLY_ONES(answer);
}

/* The count of records that compacting saves, or -1 when it is refused. */
long records_saved(const uint8_t *file, size_t length, uint64_t *masks,
                   size_t records, uint8_t *destination)
{
    uint64_t answer = pcn_compact(file, length, masks, records, destination,
                                  length);

    return PCN_REFUSED(answer) ? -1 : (long)((length - answer) / 24);
}

/* A change over, and the first cycle of the compacted file after it; what one
   of them is refused by, or 0. */
int change_refused(const uint8_t *file, size_t length, uint64_t *masks,
                   const uint64_t *board, uint64_t *new_board, size_t records,
                   const uint8_t *compacted, size_t new_records,
                   uint64_t *next)
{
    uint64_t answer = pcn_change_over(file, length, masks, records, board,
                                      records, new_board, records);

    if (!PCN_REFUSED(answer))
        answer = pcn_cycle(compacted, 8 + 24 * new_records, new_board,
                           new_records, next, new_records);
    return PCN_REFUSED(answer) ? (int)PCN_REFUSAL(answer) : 0;
}

/* Two cycles after a start with this word at record 0; the record whose width
   or word is refused, or -1. */
int refused_record(const uint8_t *file, size_t length, uint64_t *board,
                   uint64_t *next, size_t records, uint64_t pin)
{
    uint64_t answer = pcn_check(file, length);

    if (!PCN_REFUSED(answer))
        answer = pcn_start(file, length, board, records);
    board[0] = pin;
    if (!PCN_REFUSED(answer))
        answer = pcn_cycle(file, length, board, records, next, records);
    if (!PCN_REFUSED(answer))
        answer = pcn_cycle(file, length, next, records, board, records);
    return PCN_REFUSED(answer) && (PCN_REFUSAL(answer) == PCN_BAD_WIDTH
                                   || PCN_REFUSAL(answer) == PCN_WIDE_WORD)
               ? (int)PCN_RECORD(answer) : -1;
}

/* The record whose mask is refused when the file is trimmed by this list, or
   -1. */
int refused_mask(const uint8_t *file, size_t length, const uint64_t *masks,
                 size_t records, uint8_t *destination)
{
    uint64_t answer = pcn_trim_by(file, length, masks, records, destination,
                                  length);

    return PCN_REFUSED(answer) && PCN_REFUSAL(answer) == PCN_BAD_MASK
               ? (int)PCN_RECORD(answer) : -1;
}
