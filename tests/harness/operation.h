/* An operation as data: its parameters in order, its refusals, the library's
   function and the model's.
   Assumes at most two files, six lists and two numbers. */

#ifndef OPERATION_H
#define OPERATION_H

#include <stddef.h>
#include <stdint.h>

#include "netlist.h"
#include "rng.h"

enum { FILES = 2, LISTS = 6, NUMBERS = 2,
       PARAMETERS = FILES + LISTS + NUMBERS };

/* What is passed for one parameter: memory and its length in bytes, or a
   number. */
struct argument {
    uint8_t *bytes;
    size_t length;
    uint64_t number;
};

/* What is passed for all parameters of a call, in their order. */
struct lent {
    struct argument of[PARAMETERS];
};

typedef uint64_t function(const struct lent *lent);

/* How memory is passed in C: bytes and how many, or words and how many. */
#define BYTES_OF(lent, i) (lent)->of[i].bytes, (lent)->of[i].length
#define WORDS_OF(lent, i) \
    (uint64_t *)(void *)(lent)->of[i].bytes, (lent)->of[i].length / 8

/* What a parameter is. Words are aligned as C aligns them; bytes may begin
   anywhere. What is read is never written. What is written may hold anything
   before an accepted call, which need not write all of it; what is changed is
   read first. */
enum { MEMORY = 1, WORDS = 2, READ = 4, WRITTEN = 8 };

enum sort {
    NO_PARAMETER = 0,
    A_NUMBER = READ,
    A_FILE = MEMORY,
    READ_BYTES = MEMORY | READ,
    READ_WORDS = MEMORY | WORDS | READ,
    WRITTEN_BYTES = MEMORY | WRITTEN,
    WRITTEN_WORDS = MEMORY | WORDS | WRITTEN,
    CHANGED_BYTES = MEMORY | READ | WRITTEN,
    CHANGED_WORDS = MEMORY | WORDS | READ | WRITTEN
};

/* Whether it is memory, is counted in words, and is written. */
static inline int is_memory(enum sort sort)
{
    return (sort & MEMORY) != 0;
}

static inline int is_words(enum sort sort)
{
    return (sort & WORDS) != 0;
}

static inline int is_written(enum sort sort)
{
    return (sort & WRITTEN) != 0;
}

/* The length that a list must have: a word for each record of a file, or as
   many bytes as the file; any length will do where no answer refuses it. */
enum measure { ANY_LENGTH, WORD_A_RECORD, LENGTH_OF_FILE };

struct parameter {
    const char *name;
    enum sort sort;
    enum measure measure;
    unsigned file;    /* the place of the file that it is measured by */
    unsigned refusal; /* of a list that has another length */
};

/* The set of the refusals that an operation can give. 15 is in all of them,
   since it is about the file. */
#define REFUSAL(number) ((uint64_t)1 << (number))
#define REFUSALS_TO(last) ((REFUSAL(last) - 1) * 2 | REFUSAL(15))

/* What is wrong with a call in the words of the paper, or null; no model is
   asked. */
typedef const char *judgement(const struct lent *before,
                              const struct lent *after, uint64_t answer);

struct operation {
    const char *name;
    function *library;
    function *model;
    struct parameter parameters[PARAMETERS];
    uint64_t refusals;

    /* Changes the designs of a call before they are written as its files, one
       for each file, so that they suit each other. Null: any will do. */
    void (*arrange)(struct rng *rng, struct netlist *nets);

    /* Puts words and numbers in place that make the call an accepted one,
       where lists have their right lengths and hold anything. Null: it is
       accepted whatever they hold. */
    void (*prepare)(struct rng *rng, const struct netlist *nets,
                    struct lent *lent);

    /* Of accepted calls, and of refused ones. Null: no judge. */
    judgement *judge;
    judgement *judge_refused;
};

#endif
