/* Shows which bits trimming cuts from a netlist file: cut FILE [TRIMMED].
   Assumes pcn.h on the include path, and its library to link with. */

/* To build it from the root of a clone, after `make library`:
       gcc -Iinclude examples/cut.c target/staticlib/libpcn.a -o cut
   Its status is 0 for a file that was trimmed, 1 for a refused one, and 2
   where reading, writing or finding memory failed. */

#define PROGRAM "cut"

#include "files.h"

/* Without spaces, since these part the fields of a line. */
static const char *const kinds[] = {
    "input", "constant", "register", "output", "extract", "concat", "and",
    "or", "xor", "mux", "add", "sub", "mul", "equal", "below", "left-shift",
    "right-shift", "arithmetic-right-shift", "signed-below"
};

/* Prints the tally, and a line for each record whose keep word lost bits. The
   file was accepted: it has all these records, and their kinds have names. */
static int report(uint64_t tally, const uint8_t *file, const uint8_t *trimmed,
                  size_t count)
{
    unsigned i, bits = 0, records = 0;

    printf("%" PRIu32 " of %" PRIu32 " bits are cared for\n",
           PCN_TALLY_ONES(tally), PCN_TALLY_WIDTH(tally));
    for (i = 0; i < count; i++) {
        size_t at = HEADER + RECORD * (size_t)i;
        uint64_t before = word_at(file + at + KEEP);
        uint64_t after = word_at(trimmed + at + KEEP);
        uint64_t lost = before & ~after;
        unsigned ones = 0;

        if (lost == 0)
            continue;
        for (; lost != 0; lost &= lost - 1)
            ones++;
        printf("record %u %s width %u keep %016" PRIx64 " becomes %016" PRIx64
               " cut %u\n", i, kinds[file[at + KIND]], file[at + WIDTH],
               before, after, ones);
        bits += ones;
        records++;
    }
    printf("bits cut: %u, records cut: %u\n", bits, records);
    return DONE;
}

/* Without a name for it, the trimmed file is written nowhere. */
static int cut(const uint8_t *file, size_t length, const char *name)
{
    uint64_t answer = pcn_check(file, length);
    size_t count = (size_t)answer;
    uint8_t *masks, *trimmed;
    int status;

    if (PCN_REFUSED(answer))
        return refusal(answer);
    masks = room(8 * count);
    trimmed = room(length);
    if (masks == NULL || trimmed == NULL) {
        status = trouble("find memory for", "the trimmed file");
    } else {
        answer = pcn_trim(file, length, masks, 8 * count, trimmed, length);
        status = PCN_REFUSED(answer) ? refusal(answer)
                                     : report(answer, file, trimmed, count);
    }
    if (status == DONE && name != NULL)
        status = write_file(name, trimmed, length);
    free(masks);
    free(trimmed);
    return status;
}

int main(int argc, char **argv)
{
    uint8_t *file = NULL;
    size_t length = 0;
    int status;

    if (argc != 2 && argc != 3) {
        fprintf(stderr, "usage: cut FILE [TRIMMED]\n");
        return TROUBLE;
    }
    status = read_file(argv[1], &file, &length);
    if (status == DONE)
        status = cut(file, length, argv[2]);
    free(file);
    return ended(status);
}
