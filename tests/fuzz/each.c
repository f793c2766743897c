/* Calls every operation that is described, as the input chooses it.
   Assumes that library and model are compared at each call. */

#include "each.h"

#include "../../include/pcn.h"
#include "../harness/lend.h"
#include "../harness/operations.h"
#include "compare.h"
#include "fault.h"
#include "records.h"
#include "seen.h"

/* A file without a header gets lists of a few words in a run, and a count that
   is refused gets lists of that many words up to one above the limit. */
enum { FEW = 3 };

enum { LIST_FILL = 100 };

static uint32_t count_for_lists(const struct file *file)
{
    uint32_t count = file->length < HEADER_BYTES
        ? FEW : read_16(file->bytes + 6);

    return count > COUNT_LIMIT + 1 ? COUNT_LIMIT + 1 : count;
}

/* Lengths and contents as the input has them; whether all lengths are right. */
static int choose_lists(const struct control *control,
                        const struct operation *operation, struct lent *lent)
{
    unsigned number = 0;
    int all_right = 1;
    unsigned i;

    for (i = 0; i < parameters_of(operation); i++) {
        const struct parameter *parameter = &operation->parameters[i];
        struct argument *list = &lent->of[i];
        size_t right = list->length;

        if (parameter->sort == A_FILE || !is_memory(parameter->sort))
            continue;
        if (right > INPUT_ROOM)
            right = INPUT_ROOM;
        list->length = chosen_length(control, number, right,
                                     is_words(parameter->sort));
        if (is_measured(parameter) && list->length != right)
            all_right = 0;
        fill_list(control, LIST_FILL + number++, list->bytes, list->length);
    }
    return all_right;
}

static uint64_t seen_call(const struct operation *operation,
                          const struct subject *subject,
                          const struct lent *lent)
{
    uint64_t answer = compared(operation, lent, &subject->control->front);

    if (subject->accepted && PCN_REFUSED(answer))
        seen_refused(subject->files->bytes, answer);
    return answer;
}

/* The designs of an accepted file, made to suit each other where there are
   several, with right lengths and what makes the call an accepted one. */
static struct lent lend_right(const struct operation *operation,
                              struct rng *rng, const struct subject *subject)
{
    static struct netlist nets[FILES];
    unsigned i;

    for (i = 0; i < files_of(operation); i++)
        netlist_read(&nets[i], subject->files->bytes, subject->files->length);
    if (operation->arrange != NULL)
        operation->arrange(rng, nets);
    return lend(operation, rng, nets);
}

/* As the input chooses; and as it should be, unless that was the same. Where
   words and numbers can be refused, a few of those are spoilt afterwards. */
static uint64_t try_operation(const struct operation *operation,
                              const struct subject *subject)
{
    struct rng rng = rng_for(subject->control->seed, LIST_FILL);
    struct lent lent = lend_files(operation, &rng, subject->files);
    int all_right = choose_lists(subject->control, operation, &lent);
    uint64_t answer = seen_call(operation, subject, &lent);

    if (subject->accepted && (!all_right || operation->prepare != NULL)) {
        lent = lend_right(operation, &rng, subject);
        seen_call(operation, subject, &lent);
    }
    if (subject->accepted && operation->prepare != NULL) {
        lent = lend_right(operation, &rng, subject);
        lend_spoilt(operation, &rng, &lent);
        seen_call(operation, subject, &lent);
    }
    return answer;
}

void try_each(struct subject *subject)
{
    uint64_t answer = try_operation(&check_operation, subject);
    unsigned i;

    seen_checked(subject->files->bytes, answer);
    subject->accepted = !PCN_REFUSED(answer);
    subject->count = count_for_lists(subject->files);
    if (subject->accepted && answer != subject->count)
        fault("check", "the answer is not the count in the header");
    for (i = 0; i < OPERATIONS; i++)
        if (operations[i] != &check_operation)
            try_operation(operations[i], subject);
}
