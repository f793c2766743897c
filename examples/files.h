/* What the example programs share: files, refusals in words, and memory.
   Assumes PROGRAM, the program's name in quotes, to begin messages with. */

#ifndef FILES_H
#define FILES_H

#include <errno.h>
#include <inttypes.h>
#include <stdio.h>
#include <stdlib.h>
#include <string.h>

#include "pcn.h"

/* The layout of a file: docs/FORMAT.md. */
enum { HEADER = 8, RECORD = 24, KIND = 0, WIDTH = 1, KEEP = 16, MOST = 2048 };

/* The status that a program ends with. */
enum { DONE = 0, REFUSED = 1, TROUBLE = 2 };

/* For every number that a function gives. */
static const char *const reasons[] = {
    [PCN_TOO_SHORT] = "the file is shorter than its header",
    [PCN_BAD_MARK] = "the file does not begin as a netlist file does",
    [PCN_BAD_VERSION] = "the version is not 1",
    [PCN_TOO_MANY_RECORDS] = "the header announces more than 2,048 records",
    [PCN_BAD_LENGTH] = "the length does not fit the count of records",
    [PCN_BAD_KIND] = "there is no such kind",
    [PCN_BAD_WIDTH] = "the width is not between 1 and 64",
    [PCN_BAD_OPERAND] = "an operand names a record that it may not read",
    [PCN_BAD_WIDTH_RULE] = "the widths do not fit as the kind demands",
    [PCN_UNUSED_BIT] = "an unused field or bit is not 0",
    [PCN_BAD_LIST] = "a list has a wrong length",
    [PCN_WIDE_WORD] = "the word of an input or register is too wide",
    [PCN_BAD_DESTINATION] = "the destination has a wrong length",
    [PCN_BAD_MASK] = "the mask lacks a bit or has one beyond the width",
    [PCN_WIDE_MULTIPLIER] = "a multiplier is wider than 32 bits"
};

static int trouble(const char *what, const char *name)
{
    fprintf(stderr, PROGRAM ": cannot %s %s: %s\n", what, name,
            strerror(errno));
    return TROUBLE;
}

static int refusal(uint64_t answer)
{
    printf("refused %" PRIu32 " record %" PRIu32 ": %s\n", PCN_REFUSAL(answer),
           PCN_RECORD(answer), reasons[PCN_REFUSAL(answer)]);
    return REFUSED;
}

/* Room for exactly so many bytes. The library wants a pointer that is not
   null for length 0 too, and malloc(0) may give null. */
static void *room(size_t length)
{
    return malloc(length > 0 ? length : 1);
}

/* Of a file that is too long, one byte beyond the limit is enough to have it
   refused, so no more is read. */
static int read_file(const char *name, uint8_t **file, size_t *length)
{
    static uint8_t space[HEADER + RECORD * MOST + 1];
    FILE *in = fopen(name, "rb");
    int failed;

    if (in == NULL)
        return trouble("open", name);
    *length = fread(space, 1, sizeof space, in);
    failed = ferror(in);
    if (fclose(in) != 0 || failed)
        return trouble("read", name);
    *file = room(*length);
    if (*file == NULL)
        return trouble("find memory for", name);
    memcpy(*file, space, *length);
    return DONE;
}

/* The last bytes may reach the file only when it is closed. */
static int write_file(const char *name, const uint8_t *file, size_t length)
{
    FILE *out = fopen(name, "wb");
    int failed;

    if (out == NULL)
        return trouble("open", name);
    failed = fwrite(file, 1, length, out) != length;
    if (fclose(out) != 0 || failed)
        return trouble("write", name);
    return DONE;
}

/* Eight bytes as a number, lowest byte first, on any machine. */
static uint64_t word_at(const uint8_t *bytes)
{
    uint64_t word = 0;
    int i;

    for (i = 7; i >= 0; i--)
        word = word << 8 | bytes[i];
    return word;
}

/* What main returns: the status, unless what was printed got lost. */
static int ended(int status)
{
    if (fflush(stdout) != 0 || ferror(stdout))
        return trouble("write", "the answer");
    return status;
}

#endif
