/* The fuzz target: one input is one file, and calls of all operations.
   Assumes libFuzzer, which makes the inputs and saves one that aborts. */

#include <string.h>

#include "../harness/options.h"
#include "compacted.h"
#include "each.h"
#include "fuzzer.h"
#include "runs.h"
#include "seen.h"

/* Blocks live for one call, so a long list of freed ones would only take
   memory. Looking for leaks needs rights that not every machine gives, and
   the model allocates nothing. */
const char *__asan_default_options(void);

const char *__asan_default_options(void)
{
    return "quarantine_size_mb=4:detect_leaks=0";
}

/* Failing calls are saved where the tests save them; there is no seed. */
int LLVMFuzzerInitialize(int *argc, char ***argv)
{
    (void)argc;
    options_begin(1, *argv);
    seen_begin();
    return 0;
}

int LLVMFuzzerTestOneInput(const uint8_t *input, size_t size)
{
    static struct file files[FILES];
    struct control control;
    struct subject subject = { files, &control, 0, 0 };
    unsigned i;

    if (size > INPUT_ROOM)
        return 0;
    for (i = 0; i < FILES; i++) {
        files[i].length = control_read(&control, input, size);
        memcpy(files[i].bytes, input, files[i].length);
    }
    seen_input();
    try_each(&subject);
    try_runs(&subject);
    try_compacted(&subject);
    return 0;
}
