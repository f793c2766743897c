/* Shows the masks of a file, adds bits to keep, and trims by that list.
   Assumes pcn.h on the include path, and its library to link with. */

/* keep FILE shows the mask of each record.
   keep FILE TRIMMED [RECORD:BITS]... adds the bits, in hexadecimal, to the
   masks of these records and writes the file trimmed by that list. Where they
   call for further bits it writes nothing and prints what to add as well.

   To build it from the root of a clone, after `make library`:
       gcc -Iinclude examples/keep.c target/staticlib/libpcn.a -o keep
   Its status is 0 where nothing was refused, 1 for a refused file or list,
   and 2 where an argument is wrong, or reading, writing or finding memory
   failed. */

#define PROGRAM "keep"

#include "files.h"

enum { CONSTANT = 1 };

/* What pcn_trim_by is lent: the list has a word for each record, and there is
   room for a trimmed file as long as the file. */
struct lent {
    uint8_t *file;
    size_t length;
    uint64_t *list;
    size_t count;
    uint8_t *trimmed;
};

static uint64_t trim_by(const struct lent *lent)
{
    return pcn_trim_by(lent->file, lent->length, lent->list, lent->count,
                       lent->trimmed, lent->length);
}

static uint8_t *record_at(const struct lent *lent, size_t record)
{
    return lent->file + HEADER + RECORD * record;
}

/* All bits of the record's width, which is 1 to 64 in an accepted file. */
static uint64_t all_bits(const struct lent *lent, size_t record)
{
    return ~(uint64_t)0 >> (64 - record_at(lent, record)[WIDTH]);
}

/* Takes an argument RECORD:BITS and adds these bits to the list. A number too
   large for strtoul becomes the largest one, which is no record. */
static int add(const struct lent *lent, const char *argument)
{
    size_t digits = strspn(argument, "0123456789");
    const char *bits = argument + digits + 1;

    if (digits >= 1 && argument[digits] == ':') {
        size_t record = strtoul(argument, NULL, 10);
        size_t more = strspn(bits, "0123456789abcdefABCDEF");

        if (record < lent->count && more >= 1 && more <= 16
            && bits[more] == '\0') {
            lent->list[record] |= strtoull(bits, NULL, 16);
            return DONE;
        }
    }
    fprintf(stderr, "keep: no RECORD:BITS of this file: %s\n", argument);
    return TROUBLE;
}

/* Prints the smallest masks and what was added to them. */
static void show(uint64_t tally, const uint8_t *masks, const struct lent *lent)
{
    unsigned i;

    printf("%" PRIu32 " of %" PRIu32 " bits are cared for\n",
           PCN_TALLY_ONES(tally), PCN_TALLY_WIDTH(tally));
    for (i = 0; i < lent->count; i++) {
        uint64_t mask = word_at(masks + 8 * (size_t)i);
        uint64_t added = lent->list[i] & ~mask;

        printf("record %u width %u mask %016" PRIx64, i,
               record_at(lent, i)[WIDTH], mask);
        if (added != 0)
            printf(" added %016" PRIx64, added);
        printf("\n");
    }
}

/* The bits that the mask of the record lacks, which the library does not
   tell. Each bit in turn is left out, with all others there: the record is
   then refused only if that bit is called for. Its keep word is 0 meanwhile.
   So it asks for nothing itself, and no lower record can be refused in its
   stead. A constant never asks, and its keep word is part of its value. */
static uint64_t lacking(const struct lent *lent, uint32_t record)
{
    uint8_t *at = record_at(lent, record), keep[8];
    uint64_t mask = lent->list[record], all = all_bits(lent, record);
    uint64_t called_for = 0, bit;

    memcpy(keep, at + KEEP, sizeof keep);
    if (at[KIND] != CONSTANT)
        memset(at + KEEP, 0, sizeof keep);
    for (bit = 1; (bit & all) != 0; bit <<= 1) {
        uint64_t answer;

        lent->list[record] = all & ~bit;
        answer = trim_by(lent);
        if (PCN_REFUSED(answer) && PCN_RECORD(answer) == record)
            called_for |= bit;
    }
    memcpy(at + KEEP, keep, sizeof keep);
    lent->list[record] = mask;
    return called_for & ~mask;
}

/* Prints what is wrong with a refused list. Bits that one record lacks may
   call for more elsewhere, so they are added here until the list is accepted.
   No other bits are added: no smaller list would do. */
static int explain(const struct lent *lent, uint64_t answer)
{
    while (PCN_REFUSED(answer)) {
        uint32_t record = PCN_RECORD(answer);
        uint64_t beyond = lent->list[record] & ~all_bits(lent, record);
        uint64_t missing;

        if (beyond != 0) {
            printf("beyond the width %" PRIu32 ":%" PRIx64 "\n", record,
                   beyond);
            break;
        }
        missing = lacking(lent, record);
        printf("add %" PRIu32 ":%" PRIx64 "\n", record, missing);
        lent->list[record] |= missing;
        answer = trim_by(lent);
    }
    return REFUSED;
}

/* The second step. */
static int write_by_list(const struct lent *lent, const char *name)
{
    uint64_t answer = trim_by(lent);

    if (PCN_REFUSED(answer)) {
        refusal(answer);
        return explain(lent, answer);
    }
    printf("%" PRIu32 " of %" PRIu32 " bits are in the list\n",
           PCN_TALLY_ONES(answer), PCN_TALLY_WIDTH(answer));
    return write_file(name, lent->trimmed, lent->length);
}

/* Both steps. The masks come as bytes and the list is made of words. The
   words begin with the name of the trimmed file, and a null pointer is behind
   the last one. */
static int both_steps(const struct lent *lent, uint8_t *masks, char **words)
{
    uint64_t answer = pcn_masks(lent->file, lent->length, masks,
                                8 * lent->count);
    const char *name = *words;
    size_t i;

    if (PCN_REFUSED(answer))
        return refusal(answer);
    for (i = 0; i < lent->count; i++)
        lent->list[i] = word_at(masks + 8 * i);
    while (name != NULL && *++words != NULL)
        if (add(lent, *words) != DONE)
            return TROUBLE;
    show(answer, masks, lent);
    return name == NULL ? DONE : write_by_list(lent, name);
}

static int keep(uint8_t *file, size_t length, char **words)
{
    uint64_t answer = pcn_check(file, length);
    struct lent lent = { file, length, NULL, (size_t)answer, NULL };
    uint8_t *masks;
    int status;

    if (PCN_REFUSED(answer))
        return refusal(answer);
    masks = room(8 * lent.count);
    lent.list = room(8 * lent.count);
    lent.trimmed = room(length);
    if (masks == NULL || lent.list == NULL || lent.trimmed == NULL)
        status = trouble("find memory for", "the trimmed file");
    else
        status = both_steps(&lent, masks, words);
    free(masks);
    free(lent.list);
    free(lent.trimmed);
    return status;
}

int main(int argc, char **argv)
{
    uint8_t *file = NULL;
    size_t length = 0;
    int status;

    if (argc < 2) {
        fprintf(stderr, "usage: keep FILE [TRIMMED [RECORD:BITS]...]\n");
        return TROUBLE;
    }
    status = read_file(argv[1], &file, &length);
    if (status == DONE)
        status = keep(file, length, argv + 2);
    free(file);
    return ended(status);
}
