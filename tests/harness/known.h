/* Designs written as tables, and calls whose results are known beforehand.
   Assumes operations with one file. */

#ifndef KNOWN_H
#define KNOWN_H

#include "operation.h"

/* Records of a table. All keep words are full but those of KEEPING and of an
   output, which keeps what it asks for. */
#define FULL(w) ((w) > 63 ? ~(uint64_t)0 : ((uint64_t)1 << (w) % 64) - 1)
#define KEEPING(keep, kind, w, a, b, c, k) \
    { KIND_##kind, w, { a, b, c }, k, keep }
#define ROW(kind, w, a, b, c, k) KEEPING(FULL(w), kind, w, a, b, c, k)
#define INPUT(w) ROW(INPUT, w, 0, 0, 0, 0)
#define CONSTANT(w, k) ROW(CONSTANT, w, 0, 0, 0, k)
#define REGISTER(w, a, k) ROW(REGISTER, w, a, 0, 0, k)
#define EXTRACT(w, a, k) ROW(EXTRACT, w, a, 0, 0, k)
#define OF_TWO(kind, w, a, b) ROW(kind, w, a, b, 0, 0)
#define OUTPUT(w, a, asked) KEEPING(asked, OUTPUT, w, a, 0, 0, 0)

/* A table, which must stand outside functions: its records and how many. */
#define DESIGN(...) \
    (const struct record[]){ __VA_ARGS__ }, \
    sizeof((const struct record[]){ __VA_ARGS__ }) / sizeof(struct record)

/* A named test: a design and the words that come of it. */
struct worked {
    const char *name;
    const struct record *records;
    size_t count;
    uint64_t words[9];
};

typedef void attempt_words(const struct operation *operation,
                           const struct netlist *net, const uint64_t *words);

void worked_make(struct netlist *net, const struct worked *worked);

void try_worked(const struct operation *operation,
                const struct worked *worked, size_t many,
                attempt_words *attempt);

/* The same for the designs among the examples of 01, with their masks. */
void try_examples(const struct operation *operation, attempt_words *attempt);

/* The narrowest and widest record of this kind. */
unsigned least_width(uint8_t kind);
unsigned most_width(uint8_t kind);

/* Fills `net` with three inputs and a record that reads as many of them as
   its kind does; the widths are the record's, then the inputs'. */
enum { READER = 3 };

void reader_make(struct netlist *net, uint8_t kind, const unsigned *widths,
                 uint64_t k);

/* The same with inputs and a k that suit a record of this width. */
void reader_suited(struct netlist *net, uint8_t kind, unsigned width);

/* Lends the memory of a call on this design, with lists of the right lengths
   and what makes it an accepted one. */
struct lent lend_worked(const struct operation *operation,
                        const struct worked *worked);

/* Tries a call on this design, or on these bytes, with lists of the right
   lengths; the memory of the last such call, and the library's answer. */
struct known {
    struct lent lent;
    uint64_t answer;
};

struct known known_call(const struct operation *operation,
                        const struct netlist *net);
struct known known_file(const struct operation *operation,
                        const uint8_t *bytes, size_t length);

/* The same, which must be accepted with these masks in the first list. */
void expect_masks(const struct operation *operation,
                  const struct netlist *net, const uint64_t *masks);

#endif
