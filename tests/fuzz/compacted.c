/* Clocks an accepted file and its compacted one, from reset and changed over.
   Assumes that the compacted file itself is compared before. */

#include "compacted.h"

#include "../change_over/over.h"
#include "fault.h"
#include "seen.h"

enum { PINS_FILL = 500 };

/* About one start and one refused call in so many cycles; the cycles before a
   change over, and those after it or after a start of both. */
static const struct course course = { 2, 5, { 6, 6 } };

static const char *run_both(struct beside *beside, struct rng *rng)
{
    const char *wrong = beside_start(beside);
    unsigned i;

    for (i = 0; i < course.together && wrong == NULL; i++)
        wrong = beside_call(beside, &course.chances, rng);
    return wrong;
}

static void demand(const char *operation, const char *wrong)
{
    if (wrong != NULL)
        fault(operation, "%s", wrong);
}

void try_compacted(const struct subject *subject)
{
    static struct file made;
    static struct beside beside;
    static struct over over;
    const struct file *file = subject->files;
    struct rng rng = rng_for(subject->control->seed, PINS_FILL);

    if (!subject->accepted)
        return;
    demand("compact", beside_compact(file, over.masks, &made));
    seen_compacted(file->bytes, over.masks, made.length < file->length);
    demand("compact", beside_begin(&beside, file, &made, &rng));
    demand("compact", run_both(&beside, &rng));
    demand("change_over", run_over(&beside, &course, &over, &rng));
    seen_changed_over(file->bytes, over.masks, over.board);
}
