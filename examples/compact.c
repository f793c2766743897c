/* Compacts a netlist file, and changes over to it: compact FILE [COMPACTED].
   Assumes pcn.h on the include path, and its library to link with. */

/* To build it from the root of a clone, after `make library`:
       gcc -Iinclude examples/compact.c target/staticlib/libpcn.a -o compact
   It tells what is saved. Then the file runs for some cycles, is changed over
   to the compacted one while it runs, and both go on side by side.
   Its status is 0 for a file that was compacted, 1 for a refused one, 2 where
   reading, writing or finding memory failed, and 3 where an output of the
   compacted file is not that of the file. */

#define PROGRAM "compact"

#include "files.h"

/* Kinds of records. */
enum { INPUT = 0, OUTPUT = 3 };

/* The cycles before the change over, and as many after it. */
enum { CYCLES = 10 };

/* One more status that this program ends with. */
enum { UNLIKE = 3 };

/* A file that runs. Before a cycle the board list holds its pins and states;
   after it, the old list holds the values of that cycle. */
struct run {
    const uint8_t *file;
    size_t length, count;
    uint64_t *board, *old;
};

static uint8_t kind_at(const struct run *run, size_t record)
{
    return run->file[HEADER + RECORD * record + KIND];
}

static uint8_t width_at(const struct run *run, size_t record)
{
    return run->file[HEADER + RECORD * record + WIDTH];
}

/* Words that look drawn, but are the same for both files: the first input of
   one has the word of the first of the other, and so on. */
static void put_pins(const struct run *run, unsigned cycle)
{
    uint64_t word = cycle;
    size_t i;

    for (i = 0; i < run->count; i++)
        if (kind_at(run, i) == INPUT) {
            word = word * 6364136223846793005u + 1442695040888963407u;
            run->board[i] = word >> (64 - width_at(run, i));
        }
}

/* The states that follow are the next board list. */
static int run_cycle(struct run *run, unsigned cycle)
{
    uint64_t *values = run->board;
    uint64_t answer;

    put_pins(run, cycle);
    answer = pcn_cycle(run->file, run->length, run->board, run->count,
                       run->old, run->count);
    if (PCN_REFUSED(answer))
        return refusal(answer);
    run->board = run->old;
    run->old = values;
    return DONE;
}

/* The next output from this record on, or the count of records. */
static size_t output_from(const struct run *run, size_t record)
{
    while (record < run->count && kind_at(run, record) != OUTPUT)
        record++;
    return record;
}

/* Both have as many outputs, and these go together in record order. */
static int compare_outputs(const struct run *file, const struct run *compacted,
                           unsigned cycle)
{
    size_t i = output_from(file, 0), j = output_from(compacted, 0);

    for (; i < file->count; i = output_from(file, i + 1)) {
        if (file->old[i] != compacted->old[j]) {
            fprintf(stderr, PROGRAM ": AN OUTPUT DIFFERS in cycle %u: record"
                    " %u has %016" PRIx64 ", and record %u of the compacted"
                    " file %016" PRIx64 "\n", cycle, (unsigned)i,
                    file->old[i], (unsigned)j, compacted->old[j]);
            return UNLIKE;
        }
        j = output_from(compacted, j + 1);
    }
    return DONE;
}

static int run_alone(struct run *file)
{
    uint64_t answer = pcn_start(file->file, file->length, file->board,
                                file->count);
    int status = PCN_REFUSED(answer) ? refusal(answer) : DONE;
    unsigned cycle;

    for (cycle = 0; cycle < CYCLES && status == DONE; cycle++)
        status = run_cycle(file, cycle);
    return status;
}

/* The new list has a word for each record of the file. Its first words are the
   board list of the compacted file. */
static int change_over(const struct run *file, const struct run *compacted,
                       uint64_t *masks)
{
    uint64_t answer = pcn_change_over(file->file, file->length, masks,
                                      file->count, file->board, file->count,
                                      compacted->board, file->count);

    return PCN_REFUSED(answer) ? refusal(answer) : DONE;
}

static int run_both(struct run *file, struct run *compacted)
{
    int status = DONE;
    unsigned cycle;

    for (cycle = CYCLES; cycle < 2 * CYCLES && status == DONE; cycle++) {
        status = run_cycle(file, cycle);
        if (status == DONE)
            status = run_cycle(compacted, cycle);
        if (status == DONE)
            status = compare_outputs(file, compacted, cycle);
    }
    return status;
}

/* Finds memory for the lists, and lets the file go over to the compacted one
   in mid-run. */
static int run_over(struct run file, struct run compacted, uint64_t *masks)
{
    uint64_t *lists[] = { room(8 * file.count), room(8 * file.count),
                          room(8 * file.count), room(8 * compacted.count) };
    int status = TROUBLE;
    unsigned i;

    file.board = lists[0];
    file.old = lists[1];
    compacted.board = lists[2];
    compacted.old = lists[3];
    if (lists[0] == NULL || lists[1] == NULL || lists[2] == NULL
        || lists[3] == NULL)
        trouble("find memory for", "the runs");
    else
        status = run_alone(&file);
    if (status == DONE)
        status = change_over(&file, &compacted, masks);
    if (status == DONE)
        status = run_both(&file, &compacted);
    for (i = 0; i < sizeof lists / sizeof *lists; i++)
        free(lists[i]);
    return status;
}

/* The ones in the keep words of a file that was accepted. */
static unsigned kept_bits(const struct run *run)
{
    unsigned bits = 0;
    size_t at;

    for (at = HEADER; at < run->length; at += RECORD) {
        uint64_t keep = word_at(run->file + at + KEEP);

        for (; keep != 0; keep &= keep - 1)
            bits++;
    }
    return bits;
}

static unsigned outputs_of(const struct run *run)
{
    unsigned outputs = 0;
    size_t i;

    for (i = output_from(run, 0); i < run->count; i = output_from(run, i + 1))
        outputs++;
    return outputs;
}

static void report(const struct run *file, const struct run *compacted)
{
    printf("records: %u before, %u after\n", (unsigned)file->count,
           (unsigned)compacted->count);
    printf("bytes: %u before, %u after\n", (unsigned)file->length,
           (unsigned)compacted->length);
    printf("kept bits: %u before, %u after\n", kept_bits(file),
           kept_bits(compacted));
    printf("outputs: %u, equal in %u cycles after a change over\n",
           outputs_of(file), CYCLES);
}

/* The compacted file is as long as the answer says; the room for it is as
   long as the file was. */
static int compact_into(struct run *file, uint64_t *masks, uint8_t *compacted,
                        size_t *new_length)
{
    uint64_t answer = pcn_compact(file->file, file->length, masks, file->count,
                                  compacted, file->length);
    struct run made = { compacted, (size_t)answer, 0, NULL, NULL };
    int status;

    if (PCN_REFUSED(answer))
        return refusal(answer);
    made.count = (made.length - HEADER) / RECORD;
    status = run_over(*file, made, masks);
    if (status == DONE)
        report(file, &made);
    *new_length = made.length;
    return status;
}

/* Without a name for it, the compacted file is written nowhere. */
static int compact(const uint8_t *file, size_t length, const char *name)
{
    uint64_t answer = pcn_check(file, length);
    struct run old = { file, length, (size_t)answer, NULL, NULL };
    size_t new_length = 0;
    uint64_t *masks;
    uint8_t *compacted;
    int status;

    if (PCN_REFUSED(answer))
        return refusal(answer);
    masks = room(8 * old.count);
    compacted = room(length);
    if (masks == NULL || compacted == NULL)
        status = trouble("find memory for", "the compacted file");
    else
        status = compact_into(&old, masks, compacted, &new_length);
    if (status == DONE && name != NULL)
        status = write_file(name, compacted, new_length);
    free(masks);
    free(compacted);
    return status;
}

int main(int argc, char **argv)
{
    uint8_t *file = NULL;
    size_t length = 0;
    int status;

    if (argc != 2 && argc != 3) {
        fprintf(stderr, "usage: compact FILE [COMPACTED]\n");
        return TROUBLE;
    }
    status = read_file(argv[1], &file, &length);
    if (status == DONE)
        status = compact(file, length, argv[2]);
    free(file);
    return ended(status);
}
