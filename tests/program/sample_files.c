/* Writes random files for the test of the program: sample_files DIRECTORY.
   Assumes that the directory exists; the same files come out each time. */

#include <stdio.h>
#include <stdlib.h>

#include "../harness/families.h"
#include "../harness/styles.h"

enum { SEED = 20240608, DESIGNS = 280, DAMAGED = 400 };

static struct netlist net;
static struct file file;

static void save(const char *directory, const char *name, int number)
{
    char path[4096];
    FILE *out;

    snprintf(path, sizeof path, "%s/%s-%03d.pcn", directory, name, number);
    out = fopen(path, "wb");
    if (out == NULL || fwrite(file.bytes, 1, file.length, out) != file.length
        || fclose(out) != 0) {
        perror(path);
        exit(1);
    }
}

int main(int argc, char **argv)
{
    int i;

    for (i = 0; i < DESIGNS + DAMAGED; i++) {
        struct rng rng = rng_for(SEED, (uint64_t)i);

        if (i < DESIGNS) {
            design_by_turn(&rng, &net, design_count(&rng, 0),
                           (unsigned long)i);
            netlist_write(&net, &file);
        } else {
            family_make(&families[i % FAMILIES], &rng, &file);
        }
        save(argv[argc - 1], i < DESIGNS ? "design" : "damaged", i);
    }
    return 0;
}
