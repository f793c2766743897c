/* The functions that libFuzzer calls, and the one of its own that is used.
   Assumes clang's -fsanitize=fuzzer; no system header declares them. */

#ifndef FUZZER_H
#define FUZZER_H

#include <stddef.h>
#include <stdint.h>

int LLVMFuzzerInitialize(int *argc, char ***argv);
int LLVMFuzzerTestOneInput(const uint8_t *input, size_t size);

/* Both give the new size, which is at most `most`. */
size_t LLVMFuzzerCustomMutator(uint8_t *input, size_t size, size_t most,
                               unsigned seed);
size_t LLVMFuzzerCustomCrossOver(const uint8_t *one, size_t one_size,
                                 const uint8_t *two, size_t two_size,
                                 uint8_t *out, size_t most, unsigned seed);

/* libFuzzer's own mutations of any bytes. */
size_t LLVMFuzzerMutate(uint8_t *bytes, size_t size, size_t most);

#endif
