/* Calls an operation on memory where a step outside ends in a signal.
   Assumes Linux memory mapping and pages of at most 64 KiB. */

#define _GNU_SOURCE

#include "guard.h"

#include <setjmp.h>
#include <signal.h>
#include <stdio.h>
#include <stdlib.h>
#include <string.h>
#include <sys/mman.h>
#include <unistd.h>

/* The forbidden part is so long that no 16-bit operand points beyond it. */
enum {
    PAGE = 65536,
    ROOM = (FILE_ROOM / PAGE + 1) * PAGE,
    FORBIDDEN = ROOM,
    MARGIN = 64,
    MARGIN_BYTE = 0xa5
};

/* The same memory three times: the tests use one view, the library one of the
   others, which have forbidden pages at both ends. Changing the protection
   for each call would take far longer. */
struct area {
    uint8_t *ours;
    uint8_t *read_only;
    uint8_t *writable;
};

static struct area areas[PARAMETERS];
static sigjmp_buf back;
static volatile sig_atomic_t calling;

static void on_fault(int number)
{
    (void)number;
    if (calling)
        siglongjmp(back, 1);
    abort();
}

/* The signal is not held back in its handler, since the handler may jump
   out of itself, and the next fault must be caught as well. */
static void catch_faults(void)
{
    struct sigaction action;

    memset(&action, 0, sizeof action);
    action.sa_handler = on_fault;
    action.sa_flags = SA_NODEFER;
    sigemptyset(&action.sa_mask);
    sigaction(SIGSEGV, &action, NULL);
    sigaction(SIGBUS, &action, NULL);
}

static void *map_or_exit(void *at, size_t length, int protection, int flags,
                         int memory)
{
    void *mapped = mmap(at, length, protection, flags, memory, 0);

    if (mapped == MAP_FAILED) {
        perror("guarded memory");
        exit(2);
    }
    return mapped;
}

/* A view of the memory with forbidden pages around it. */
static uint8_t *map_lent(int memory, int protection)
{
    uint8_t *all = map_or_exit(NULL, ROOM + 2 * FORBIDDEN, PROT_NONE,
                               MAP_PRIVATE | MAP_ANONYMOUS, -1);

    return map_or_exit(all + FORBIDDEN, ROOM, protection,
                       MAP_SHARED | MAP_FIXED, memory);
}

static void make_area(struct area *area)
{
    int memory = memfd_create("lent", 0);

    if (memory < 0 || ftruncate(memory, ROOM) != 0) {
        perror("guarded memory");
        exit(2);
    }
    area->ours = map_or_exit(NULL, ROOM, PROT_READ | PROT_WRITE, MAP_SHARED,
                             memory);
    area->read_only = map_lent(memory, PROT_READ);
    area->writable = map_lent(memory, PROT_READ | PROT_WRITE);
    close(memory);
}

static void make_areas(void)
{
    unsigned i;

    for (i = 0; i < PARAMETERS; i++)
        make_area(&areas[i]);
    catch_faults();
}

/* The call and nothing else, so that no local is lost by the jump. */
static int caught_call(function *call, const struct lent *lent,
                       uint64_t *answer)
{
    if (sigsetjmp(back, 0) != 0) {
        calling = 0;
        return 0;
    }
    calling = 1;
    *answer = call(lent);
    calling = 0;
    return 1;
}

/* Where a copy lies in its area, and a few bytes around it that are not
   forbidden: they are marked before the call and looked at after it. */
struct spot {
    size_t from, begin, end, to;
};

static struct spot spot_of(enum sort sort, const struct placing *placing,
                           unsigned parameter, size_t length)
{
    size_t away = placing->away[parameter] * (is_words(sort) ? 8 : 1);
    struct spot spot = { 0, away, away + length, away + length + MARGIN };

    if (placing->edge == AT_END) {
        spot.to = ROOM;
        spot.end = ROOM - away;
        spot.begin = spot.end - length;
        spot.from = spot.begin - MARGIN;
    }
    return spot;
}

/* Copies what is lent into its area and gives the address to lend. */
static uint8_t *put_in_area(const struct area *area, enum sort sort,
                            const struct spot *spot,
                            const struct argument *argument)
{
    memset(area->ours + spot->from, MARGIN_BYTE, spot->begin - spot->from);
    memset(area->ours + spot->end, MARGIN_BYTE, spot->to - spot->end);
    if (argument->length != 0)
        memcpy(area->ours + spot->begin, argument->bytes, argument->length);
    return (is_written(sort) ? area->writable : area->read_only)
        + spot->begin;
}

static int is_marked(const uint8_t *bytes, size_t from, size_t to)
{
    while (from < to)
        if (bytes[from++] != MARGIN_BYTE)
            return 0;
    return 1;
}

/* Copies what is written back; false when bytes around it were changed. */
static int take_back(const struct area *area, const struct spot *spot,
                     const struct argument *argument)
{
    if (argument->length != 0)
        memcpy(argument->bytes, area->ours + spot->begin, argument->length);
    return is_marked(area->ours, spot->from, spot->begin)
        && is_marked(area->ours, spot->end, spot->to);
}

int guarded_call(const struct operation *operation, const struct lent *lent,
                 const struct placing *placing, uint64_t *answer)
{
    const struct parameter *parameters = operation->parameters;
    struct lent copies = *lent;
    struct spot spots[PARAMETERS];
    int kept = 1;
    unsigned i;

    if (areas[0].ours == NULL)
        make_areas();
    for (i = 0; i < PARAMETERS; i++) {
        if (!is_memory(parameters[i].sort))
            continue;
        spots[i] = spot_of(parameters[i].sort, placing, i,
                           lent->of[i].length);
        copies.of[i].bytes = put_in_area(&areas[i], parameters[i].sort,
                                         &spots[i], &lent->of[i]);
    }
    if (!caught_call(operation->library, &copies, answer))
        return 0;
    for (i = 0; i < PARAMETERS; i++)
        if (is_written(parameters[i].sort)
            && !take_back(&areas[i], &spots[i], &lent->of[i]))
            kept = 0;
    return kept;
}

uint8_t *huge_memory(size_t length)
{
    static uint8_t *all;

    if (all == NULL)
        all = map_or_exit(NULL, length, PROT_READ | PROT_WRITE,
                          MAP_PRIVATE | MAP_ANONYMOUS | MAP_NORESERVE, -1);
    return all;
}
