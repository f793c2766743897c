/* Reads the seed and the directory for failing calls, and saves them there.
   Assumes the seed in the first argument or PCN_SEED, and else a fixed one. */

#include "options.h"

#include <inttypes.h>
#include <stdio.h>
#include <stdlib.h>

#include "lend.h"

enum { DEFAULT_SEED = 20240607, PATH_ROOM = 4096 };

static uint64_t seed;
static const char *directory;

/* A variable of the environment, unless it is empty. */
static const char *variable(const char *name)
{
    const char *text = getenv(name);

    return text != NULL && *text != '\0' ? text : NULL;
}

uint64_t options_begin(int argc, char **argv)
{
    const char *text = argc > 1 ? argv[1] : variable("PCN_SEED");

    seed = text == NULL ? DEFAULT_SEED : strtoull(text, NULL, 0);
    directory = variable("PCN_SAVE");
    printf("seed %" PRIu64 "\n", seed);
    return seed;
}

static void save_bytes(const char *name, const struct argument *argument,
                       const char *path)
{
    FILE *out = fopen(path, "wb");

    if (out == NULL
        || fwrite(argument->bytes, 1, argument->length, out)
               != argument->length
        || fclose(out) != 0)
        printf("      %s: could not be saved as %s\n", name, path);
    else
        printf("      %s: saved as %s\n", name, path);
}

void save_call(const struct operation *operation, const struct lent *lent,
               unsigned long call)
{
    char path[PATH_ROOM];
    unsigned i;

    for (i = 0; i < parameters_of(operation); i++) {
        const char *name = operation->parameters[i].name;

        snprintf(path, sizeof path, "%s/failed-%" PRIu64 "-%lu.%u",
                 directory == NULL ? "." : directory, seed, call, i);
        if (is_memory(operation->parameters[i].sort))
            save_bytes(name, &lent->of[i], path);
        else
            printf("      %s: %" PRIu64 "\n", name, lent->of[i].number);
    }
}
