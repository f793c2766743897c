/* Calls the library and the model, compares them, and tells what failed.
   Assumes that two calls for the same bytes must do the same. */

#include "trial.h"

#include <inttypes.h>
#include <stdio.h>
#include <stdlib.h>
#include <string.h>

#include "../../include/pcn.h"
#include "operations.h"
#include "options.h"
#include "report.h"

enum { PLACES = 16, REFUSALS = 64 };

static unsigned long made;
static unsigned long ended[OPERATIONS][REFUSALS];

/* A trial as far as it has come: what is wrong, or null, the answers, and what
   the library and the model left. */
struct verdict {
    const char *fault;
    uint64_t library;
    uint64_t model;
    const uint64_t *demanded;
    struct lent left;
    struct lent model_left;
};

unsigned long trials_made(void)
{
    return made;
}

/* The counts of an operation; the last place also has those not listed. */
static unsigned long *counts_of(const struct operation *operation)
{
    unsigned i = 0;

    while (i < OPERATIONS - 1 && operations[i] != operation)
        i++;
    return ended[i];
}

unsigned long trials_ended(const struct operation *operation,
                           unsigned refusal)
{
    return counts_of(operation)[refusal];
}

static void copy_bytes(uint8_t *to, const uint8_t *from, size_t length)
{
    if (length != 0)
        memcpy(to, from, length);
}

/* Copies what is written from one call's memory to the other's. */
static void copy_written(const struct operation *operation,
                         const struct lent *to, const struct lent *from)
{
    unsigned i;

    for (i = 0; i < PARAMETERS; i++)
        if (is_written(operation->parameters[i].sort))
            copy_bytes(to->of[i].bytes, from->of[i].bytes,
                       from->of[i].length);
}

/* Calls the model on heap blocks of the exact lengths. Without a byte, the end
   of a block is lent. */
static void call_model(const struct operation *operation,
                       const struct lent *lent, struct verdict *verdict)
{
    unsigned i;

    verdict->model_left = *lent;
    for (i = 0; i < PARAMETERS; i++) {
        size_t length = lent->of[i].length;
        size_t spare = length == 0 ? 8 : 0;
        uint8_t *block = malloc(length + spare);

        if (block == NULL)
            exit(2);
        copy_bytes(block, lent->of[i].bytes, length);
        verdict->model_left.of[i].bytes = block + spare;
    }
    verdict->model = operation->model(&verdict->model_left);
}

static void free_model(const struct verdict *verdict)
{
    const struct argument *argument = verdict->model_left.of;
    unsigned i;

    for (i = 0; i < PARAMETERS; i++, argument++)
        free(argument->bytes - (argument->length == 0 ? 8 : 0));
}

/* What is wrong when two calls did not leave the same bytes, with the first
   byte where they differ, or null. */
static const char *unlike(const char *wrong, const struct operation *operation,
                          const struct lent *one, const struct lent *two)
{
    static char text[200];
    size_t j;
    unsigned i;

    for (i = 0; i < PARAMETERS; i++) {
        const uint8_t *bytes = one->of[i].bytes, *others = two->of[i].bytes;

        if (!is_memory(operation->parameters[i].sort) || bytes == others
            || one->of[i].length == 0
            || memcmp(bytes, others, one->of[i].length) == 0)
            continue;
        for (j = 0; bytes[j] == others[j]; j++)
            ;
        snprintf(text, sizeof text, "%s: byte %lu of the %s is %02x, not %02x",
                 wrong, (unsigned long)j, operation->parameters[i].name,
                 bytes[j], others[j]);
        return text;
    }
    return NULL;
}

/* What is wrong with the library's answer and with what it left, or null. */
static const char *library_fault(const struct operation *operation,
                                 const struct lent *lent,
                                 const struct verdict *verdict)
{
    const char *fault;

    if (verdict->library != verdict->model)
        return "the library and the model differ";
    if (verdict->demanded != NULL && verdict->library != *verdict->demanded)
        return "the answer is not the one demanded";
    fault = unlike("not as the model", operation, &verdict->left,
                   &verdict->model_left);
    if (fault == NULL && PCN_REFUSED(verdict->library))
        fault = unlike("a refused call changed memory", operation,
                       &verdict->left, lent);
    return fault;
}

static void print_answer(const char *who, uint64_t answer)
{
    if (PCN_REFUSED(answer))
        printf("      %s: refused %" PRIu32 " at record %" PRIu32, who,
               PCN_REFUSAL(answer), PCN_RECORD(answer));
    else
        printf("      %s: accepted", who);
    printf(" (%016" PRIx64 ")\n", answer);
}

static void describe(const struct operation *operation,
                     const struct lent *lent, const struct verdict *verdict)
{
    printf("      %s, call %lu: %s\n", operation->name, made, verdict->fault);
    print_answer("library", verdict->library);
    print_answer("model", verdict->model);
    if (verdict->demanded != NULL)
        print_answer("demanded", *verdict->demanded);
    save_call(operation, lent, made);
}

/* The end of a trial. All calls of the library did as the model, so that the
   operation's judge looks at the last one. */
static void conclude(const struct operation *operation,
                     const struct lent *lent, struct verdict *verdict)
{
    judgement *judge = PCN_REFUSED(verdict->library)
        ? operation->judge_refused : operation->judge;

    if (verdict->fault == NULL && judge != NULL)
        verdict->fault = judge(lent, &verdict->left, verdict->library);
    if (verdict->fault != NULL && test_fail())
        describe(operation, lent, verdict);
    counts_of(operation)[PCN_REFUSED(verdict->model)
                         ? PCN_REFUSAL(verdict->model) % REFUSALS : 0]++;
    made++;
    free_model(verdict);
}

/* Calls the library at these places and leaves what it left in the last one,
   in memory of its own. */
static struct verdict run_trial(const struct operation *operation,
                                const struct lent *lent,
                                const struct placing *placings, size_t many,
                                const uint64_t *demanded)
{
    static uint64_t memory[PARAMETERS][FILE_ROOM / 8];
    struct verdict verdict = { NULL, 0, 0, demanded, *lent, *lent };
    size_t i;

    for (i = 0; i < PARAMETERS; i++)
        if (is_written(operation->parameters[i].sort))
            verdict.left.of[i].bytes = (uint8_t *)memory[i];
    call_model(operation, lent, &verdict);
    for (i = 0; i < many && verdict.fault == NULL; i++) {
        copy_written(operation, &verdict.left, lent);
        verdict.fault = guarded_call(operation, &verdict.left, &placings[i],
                                     &verdict.library)
            ? library_fault(operation, lent, &verdict)
            : "the library stepped outside or wrote to what it may only read";
    }
    conclude(operation, lent, &verdict);
    return verdict;
}

uint64_t try_placings(const struct operation *operation,
                      const struct lent *lent,
                      const struct placing *placings, size_t many)
{
    return run_trial(operation, lent, placings, many, NULL).library;
}

void judge_call(const struct operation *operation, const struct lent *before,
                const struct lent *after, uint64_t answer)
{
    struct verdict verdict = { NULL, answer, 0, NULL, *after, *before };

    call_model(operation, before, &verdict);
    verdict.fault = library_fault(operation, before, &verdict);
    conclude(operation, before, &verdict);
}

/* Against the forbidden page behind, and near the one in front, where the
   places change from call to call. */
static uint64_t run_twice(const struct operation *operation,
                          const struct lent *lent, const uint64_t *demanded)
{
    struct placing placings[2] = { { AT_END, { 0 } }, { AT_FRONT, { 0 } } };
    struct verdict verdict;
    unsigned long rest = made;
    unsigned i;

    for (i = 0; i < PARAMETERS; i++) {
        placings[1].away[i] = rest % PLACES;
        rest /= PLACES;
    }
    verdict = run_trial(operation, lent, placings, 2, demanded);
    copy_written(operation, lent, &verdict.left);
    return verdict.library;
}

uint64_t try_call(const struct operation *operation, const struct lent *lent)
{
    return run_twice(operation, lent, NULL);
}

void expect_call(const struct operation *operation, const struct lent *lent,
                 uint64_t answer)
{
    run_twice(operation, lent, &answer);
}

void expect_refused(const struct operation *operation,
                    const struct lent *lent, unsigned refusal,
                    uint32_t record)
{
    expect_call(operation, lent, refused_answer(refusal, record));
}

uint64_t refused_answer(unsigned refusal, uint32_t record)
{
    return 0x8000000000000000u + 0x100000000u * (uint64_t)refusal + record;
}

void demand_answer(uint64_t answer, uint64_t right)
{
    if (answer != right && test_fail())
        printf("      answer %016" PRIx64 " instead of %016" PRIx64 "\n",
               answer, right);
}

void demand_words(const char *name, const struct argument *list,
                  const uint64_t *words, size_t count)
{
    size_t i;

    for (i = 0; i < count; i++)
        if (read_64(list->bytes + 8 * i) != words[i] && test_fail())
            printf("      word %lu of the %s is %016" PRIx64 " instead of %016"
                   PRIx64 "\n", (unsigned long)i, name,
                   read_64(list->bytes + 8 * i), words[i]);
}
