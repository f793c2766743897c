/* What the inputs have met: counted for the report, and a guide to the search.
   Assumes that library and model agree on what is noted here. */

#ifndef SEEN_H
#define SEEN_H

#include <stddef.h>
#include <stdint.h>

/* Has the counts written at the end to the file that PCN_FUZZ_COUNTS names,
   if it names one: a line for each count, its name and the number. */
void seen_begin(void);

/* Counts anew from here on. The inputs before were those of the corpus; what
   follows are those that the search makes. */
void seen_search(void);

/* One more input. */
void seen_input(void);

/* What check answered, and a refusal that another operation gave to a file
   that check accepts. */
void seen_checked(const uint8_t *file, uint64_t answer);
void seen_refused(const uint8_t *file, uint64_t answer);

/* The masks of an accepted file, and whether trimming it clears a bit. */
void seen_masks(const uint8_t *file, const uint64_t *masks, int cleared);

/* The masks of an accepted file that was compacted, and whether it has become
   shorter. */
void seen_compacted(const uint8_t *file, const uint64_t *masks, int shorter);

/* The masks of an accepted file that was changed over, and its board list
   before. */
void seen_changed_over(const uint8_t *file, const uint64_t *masks,
                       const uint64_t *board);

/* The values of an accepted cycle, and whether some value of the run beside it
   was another. */
void seen_values(const uint8_t *file, const uint64_t *values, int differed);

#endif
