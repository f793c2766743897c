/* Writes first inputs for the fuzz target: seeds DIRECTORY [FILE...].
   Assumes that the directory exists; the same inputs come out each time. */

#include <stdio.h>
#include <stdlib.h>

#include "../harness/designs.h"
#include "../harness/families.h"
#include "../harness/styles.h"
#include "control.h"

enum { SEED = 20240609, DESIGNS = 8 * STYLES, DAMAGED = 4 * FAMILIES };

enum { SHORT = 40, LONG = 200, DAMAGED_LENGTH = 1000 };

static struct netlist net;
static struct file file;
static const char *directory;
static unsigned written;

/* A start and cycles with any words; the lists have the right lengths in half
   of the inputs. */
static void draw_control(struct rng *rng, uint8_t *control)
{
    unsigned i;

    rng_fill(rng, control, CONTROL_BYTES);
    if (rng_once_in(rng, 2))
        control[0] = control[1] = 0;
    control[8] = 1;
    for (i = 9; i < CONTROL_BYTES; i += 2)
        control[i] = (uint8_t)(2 | 32 * rng_below(rng, 8));
}

static void save(struct rng *rng)
{
    uint8_t control[CONTROL_BYTES];
    char path[4096];
    FILE *out;

    draw_control(rng, control);
    snprintf(path, sizeof path, "%s/seed-%03u", directory, written++);
    out = fopen(path, "wb");
    if (out == NULL || fwrite(file.bytes, 1, file.length, out) != file.length
        || fwrite(control, 1, CONTROL_BYTES, out) != CONTROL_BYTES
        || fclose(out) != 0) {
        perror(path);
        exit(1);
    }
}

static void read_file(const char *path)
{
    FILE *in = fopen(path, "rb");

    if (in == NULL) {
        perror(path);
        exit(1);
    }
    file.length = fread(file.bytes, 1, INPUT_ROOM - CONTROL_BYTES, in);
    fclose(in);
}

/* Short designs of each style, but for the first two. */
static uint32_t count_of(uint32_t number)
{
    if (number == 0)
        return COUNT_LIMIT;
    return number == 1 ? LONG : number % SHORT + 1;
}

static void write_designs(void)
{
    uint32_t i;

    for (i = 0; i < DESIGNS; i++) {
        struct rng rng = rng_for(SEED, i);

        design_styled(&rng, &net, count_of(i), &styles[i % STYLES]);
        netlist_write(&net, &file);
        save(&rng);
    }
}

static void write_damaged(void)
{
    uint32_t i;

    for (i = 0; i < DAMAGED; i++) {
        struct rng rng = rng_for(SEED, DESIGNS + i);

        do
            family_make(&families[i % FAMILIES], &rng, &file);
        while (file.length > DAMAGED_LENGTH);
        save(&rng);
    }
}

int main(int argc, char **argv)
{
    struct rng rng = rng_for(SEED, DESIGNS + DAMAGED);
    int i;

    if (argc < 2) {
        fprintf(stderr, "usage: seeds DIRECTORY [FILE...]\n");
        return 2;
    }
    directory = argv[1];
    for (i = 2; i < argc; i++) {
        read_file(argv[i]);
        save(&rng);
    }
    write_designs();
    write_damaged();
    return 0;
}
