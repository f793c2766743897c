/* The last bytes of a fuzz input: how its file is handed to the operations.
   Assumes that any bytes may stand there; each of them has a meaning. */

#ifndef CONTROL_H
#define CONTROL_H

#include <stddef.h>
#include <stdint.h>

#include "../harness/guard.h"

/* An input is a file and, behind it, these bytes, so that any file with them
   put behind it is an input. An input of fewer bytes has an empty file, and
   the bytes that it lacks are 0. With 0 everywhere all lengths are right, and
   there is no run.

       0-1   lengths, four bits for each: of the lists of an operation in
             turn; in a run, byte 1 is for the board list and the next list
       2-3   how far from a forbidden page the parameters are in turn, four
             bits for each of three; bits 4 to 6 of byte 3: what lists hold
             before a call; bit 7: so does the first board list of a run, and
             its words are then as good as never within the widths
       4-7   a seed for words and numbers
       8-15  the calls of a run */

enum { CONTROL_BYTES = 16, CALLS = 8, LENGTHS = 4 };

/* No longer input is tried, and no list of a run is longer. */
enum { INPUT_ROOM = 65536, LENT_ROOM = 2 * INPUT_ROOM + 64 };

/* One call of a run: what is called, whether its lists have the lengths that
   byte 1 chooses or the right ones, whether words get bits beyond the widths,
   and what words there are. Half of all bytes give a call with neither. */
enum what { NO_CALL, A_START, A_CYCLE };

struct called {
    enum what what;
    int lengths_chosen;
    int too_wide;
    unsigned style;
};

struct control {
    unsigned lengths[LENGTHS];
    struct placing front;
    unsigned fill;
    int any_board;
    uint32_t seed;
    struct called calls[CALLS];
};

/* Reads the last bytes, and gives the length of the file before them. */
size_t control_read(struct control *control, const uint8_t *input,
                    size_t size);

/* The length that is chosen for the list of this number, when this one is
   right: whole words in a list of words. */
size_t chosen_length(const struct control *control, unsigned number,
                     size_t right, int in_words);

/* Fills a list; lists of other numbers get other bytes. */
void fill_list(const struct control *control, unsigned number, void *list,
               size_t length);

#endif
