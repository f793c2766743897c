/* Pitch card netlists: the functions that a C or C++ program may call.
   Assumes a 64-bit x86 target, linked with libpcn.a (in a clone it is
   target/staticlib/libpcn.a). */

#ifndef PCN_H
#define PCN_H

#include <stddef.h>
#include <stdint.h>

#ifdef __cplusplus
extern "C" {
#endif

/* The answer.

   Every function gives one 64-bit number.

   Accepted: bit 63 is 0, and the function says what the number means.
   Refused:  bit 63 is 1, bits 32 to 62 hold the refusal number, and bits 0
             to 31 hold the number of the record that was refused. Records
             are counted from 0. Refusals 1 to 5, 11 and 13 concern no single
             record, and their record number is 0. */

#define PCN_REFUSED(answer) ((int)((uint64_t)(answer) >> 63))
#define PCN_REFUSAL(answer) \
    ((uint32_t)((uint64_t)(answer) >> 32) & (uint32_t)0x7fffffff)
#define PCN_RECORD(answer) ((uint32_t)((uint64_t)(answer) & 0xffffffffu))

/* The tally, in an accepted answer of a function that says so: the sum of
   all widths, and the count of ones over all masks. */

#define PCN_TALLY_WIDTH(answer) ((uint32_t)((uint64_t)(answer) >> 32))
#define PCN_TALLY_ONES(answer) ((uint32_t)((uint64_t)(answer) & 0xffffffffu))

/* The refusal numbers.

   They are tried in this order: first 1 to 5 for the whole file, then 6 to
   9, 15 and 10 for record 0, then the same for record 1, and so on, then 11,
   then 12 for each record in turn, then 13, and at last 14 for each record in
   turn. The first that applies is the answer.

    1  The file is shorter than its header of 8 bytes.
    2  The file does not begin with the letters PCN, or byte 5 is not 0.
    3  The version is not 1.
    4  The header announces more than 2,048 records.
    5  The length is not 8 bytes and 24 for each record announced.
    6  The kind of the record is above 18.
    7  The width of the record is 0 or above 64.
    8  An operand that the kind uses points to no record that it may read. A
       register may read any record of the file, also itself and later ones.
       Every other kind may read earlier records only. No kind may read an
       output.
    9  The width does not fit the operands' widths as the kind demands. For
       an extract this includes reading beyond the end of its operand, and
       for a shift moving by as many places as the width has, or more.
   10  A field that the kind does not use is not 0, or the keep word has a
       bit beyond the width, or so has the value of a constant or the reset
       state of a register.
   11  A list has not one word of 8 bytes for each record.
   12  Before a cycle or a change over, the word at the record, an input or a
       register, has a bit beyond its width.
   13  The destination has not as many bytes as the file.
   14  The mask at the record, in a list that the caller made, has a bit
       beyond the width, or lacks one that is called for: an output's mask
       lacks one of its bits, or a record asks for a bit that is not there.
   15  The record is a multiplier and wider than 32 bits.

   A register may read a record that has not been looked at yet. Refusals 8
   and 9 then go by that record's kind byte and width byte as they stand. */

enum pcn_refusal {
    PCN_TOO_SHORT = 1,
    PCN_BAD_MARK = 2,
    PCN_BAD_VERSION = 3,
    PCN_TOO_MANY_RECORDS = 4,
    PCN_BAD_LENGTH = 5,
    PCN_BAD_KIND = 6,
    PCN_BAD_WIDTH = 7,
    PCN_BAD_OPERAND = 8,
    PCN_BAD_WIDTH_RULE = 9,
    PCN_UNUSED_BIT = 10,
    PCN_BAD_LIST = 11,
    PCN_WIDE_WORD = 12,
    PCN_BAD_DESTINATION = 13,
    PCN_BAD_MASK = 14,
    PCN_WIDE_MULTIPLIER = 15
};

/* Lists.

   A list has a word of 64 bits for each record; word i belongs to record i.
   There are two ways to pass one.

   - As words: `uint64_t *` and the count of words. The pointer is aligned as
     C aligns a uint64_t.
   - As bytes: `uint8_t *` and the count of bytes, 8 for each word, lowest
     byte first. The pointer needs no alignment. The mask lists of pcn_masks
     and pcn_trim are passed so.

   On this target a word lies in memory as its 8 bytes, lowest first, so the
   same memory serves both ways: an array of uint64_t can be cast to uint8_t *
   for pcn_masks, and its words are then the masks. */

/* Rules for callers.

   - A pointer must point to as many bytes or words as the count behind it
     says. What a function only reads, its `const` parameters, must be
     readable, all else readable and writable. For a count of 0 any pointer
     will do that is not null and is aligned as said above.
   - No two of the file, the lists and the destination of a call may overlap.
   - Nobody may change this memory until the call has returned, and nobody
     may read what is not `const` until then.
   - Files and destinations are bytes, need no alignment, and hold
     little-endian numbers.
   - Except where a function says so, a list or a destination may hold
     anything before the call.

   What callers may rely on: the functions change nothing but the lists and
   destinations that are not `const`, allocate nothing and keep no state
   between calls, so several threads may call them at the same time, also for
   the same file, each with lists and a destination of its own. A refused call
   changes nothing at all. pcn_masks, pcn_trim and pcn_compact take less than
   20,000 bytes of the stack, and each of the others less than 1,000. */

/* Checks a netlist file. Accepted: the answer is the count of records. */
uint64_t pcn_check(const uint8_t *file, size_t length);

/* Works out the care mask of each signal: a bit outside it can change no
   output. An and or an or with a constant asks its other operand for no bit
   that the constant alone decides.

   Refused as pcn_check refuses the file, and then by 11. Accepted: the
   answer holds the tally, and all bytes of the mask list are written. The
   mask of record i is the word of 8 bytes that begins at byte 8 * i. It has
   no bit beyond the width of the record. */
uint64_t pcn_masks(const uint8_t *file, size_t length, uint8_t *masks,
                   size_t masks_length);

/* Writes a file in which the bits outside the masks are cleared.

   Refused as pcn_masks refuses, and then by 13. Accepted: the answer and the
   mask list are those of pcn_masks, and all bytes of the destination are
   written. They are the bytes of the file but for bytes 16 to 23 of each
   record: the new keep word has the bits that are both in the old one and in
   the mask. pcn_check accepts the file in the destination. */
uint64_t pcn_trim(const uint8_t *file, size_t length, uint8_t *masks,
                  size_t masks_length, uint8_t *destination,
                  size_t destination_length);

/* Writes a file in which the bits outside the masks of a given list are
   cleared. So trimming comes in two steps: pcn_masks shows the masks, bits
   that are to be kept are added to them, and pcn_trim_by writes.

   The list is a word for each record and is only read. It may come from
   anywhere and need not be the smallest. It is accepted exactly if no mask
   has a bit beyond the width of its record, each output's mask has all its
   bits, and each record finds in its operands' masks all that it asks for
   with its own mask in the list.

   Refused as pcn_check refuses the file, then by 11, by 13, and by 14 with the
   lowest record whose mask lacks a bit that is called for or has one beyond
   its width. Accepted: the answer holds the tally of the list, and all bytes
   of the destination are written. They are the bytes of the file but for
   bytes 16 to 23 of each record: the new keep word has the bits that are both
   in the old one and in the mask of the list. pcn_check accepts the file in
   the destination. With the masks of pcn_masks, it is the file of pcn_trim. */
uint64_t pcn_trim_by(const uint8_t *file, size_t length, const uint64_t *masks,
                     size_t masks_words, uint8_t *destination,
                     size_t destination_length);

/* Writes a compacted file, in which records that no output needs are left out.

   Inputs and outputs survive. Any other survivor with mask 0 becomes a
   constant of its width that is 0: its k and its keep word are 0, and it
   names no record. Whatever the other survivors name survives too, and
   nothing else does. So an output keeps the record that it names even if its
   own keep word is 0.

   Survivors stay in their order and are numbered anew, from 0 on, also where
   they name each other. Those that do not become constants are otherwise as
   they were, with the keep words of pcn_trim: the bits that are both in the
   old one and in the mask.

   Refused as pcn_check refuses the file, then by 11 when the mask list has
   another count of words than the file of records, and then by 13: there must
   be room for the file as it was. Accepted: the answer is the length of the
   new file, 8 bytes and 24 for each survivor, and never more than that of the
   old one. All words of the mask list are written, with the masks of
   pcn_masks. The new file is in the first bytes of the destination, as many as
   the answer says; the bytes behind them stay as they were. pcn_check accepts
   the new file.

   From reset, the new file does what the old one does: if both are started by
   pcn_start and clocked by pcn_cycle, with equal words at the pins in each
   cycle, then the values at the outputs are equal in each cycle. Pins and
   outputs go together in record order: the first input of one file with the
   first of the other, the second with the second, and so on. */
uint64_t pcn_compact(const uint8_t *file, size_t length, uint64_t *masks,
                     size_t masks_words, uint8_t *destination,
                     size_t destination_length);

/* Writes the reset state of each register into a board list, and 0 at every
   other record.

   Refused as pcn_check refuses the file, and then by 11 when the board list
   has another count of words than the file of records. Accepted: the answer
   is 0, and all words of the board list are written. */
uint64_t pcn_start(const uint8_t *file, size_t length, uint64_t *board,
                   size_t board_words);

/* Runs one cycle of the design.

   Before it, the board list holds the word of the pin at each input and the
   state at each register; its other words may be anything. After it, word i
   of the board list is the value of signal i, and the next list holds at
   each register its next state, and 0 at every other record. With the words
   of the pins put at its inputs, the next list is the board list of the next
   cycle.

   Refused as pcn_check refuses the file, then by 11 when one of the lists
   has another count of words than the file of records, and then by 12.
   Accepted: the answer is 0, and all words of both lists are written. */
uint64_t pcn_cycle(const uint8_t *file, size_t length, uint64_t *board,
                   size_t board_words, uint64_t *next, size_t next_words);

/* Changes over to the compacted file in the middle of a run: writes the board
   list with which the file of pcn_compact goes on.

   The board list is that of the old file, as a cycle takes it: it holds the
   word of the pin at each input and the state at each register, and its other
   words may be anything. It is only read.

   Refused as pcn_check refuses the file, then by 11 when one of the three
   lists has another count of words than the file of records, and then by 12
   for a word of the board list. Accepted: the answer is 0, and all words of
   the mask list and of the new list are written. The masks are those of
   pcn_masks. The first words of the new list, one for each record of the
   compacted file, are a board list for that file. At each record that is still
   a register it holds its state, with the bits outside its mask cleared, and
   at each input its word as it was, also the bits outside its mask. All other
   words of the new list are 0: those at other records, also at registers that
   have become constants, and those behind the last record.

   To go on, pass the new list to pcn_cycle with the compacted file and its
   count of records; 12 applies to no word of it. From then on the compacted
   file does what the old one does: if the calls for both are alike, also where
   a start is among them, with equal words at the pins in each cycle, then the
   values at the outputs are equal in each cycle. The old board list may come
   from any calls, and need not come from a start. Pins and outputs go together
   in record order, as with pcn_compact. */
uint64_t pcn_change_over(const uint8_t *file, size_t length, uint64_t *masks,
                         size_t masks_words, const uint64_t *board,
                         size_t board_words, uint64_t *new_board,
                         size_t new_board_words);

#ifdef __cplusplus
}
#endif

#endif
