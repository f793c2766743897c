/* Families of damaged files, each made from random valid designs.
   Assumes the outcome is judged by the model: damage may hit other rules. */

#ifndef FAMILIES_H
#define FAMILIES_H

#include "damage.h"

/* The damage of a family: what it aims at, 1 to 10 or 15, or else what is done
   to the records of a design and then to the written bytes, null for none. */
struct family {
    unsigned aim;
    damage_records *records;
    damage_bytes *bytes;
    unsigned long files;
};

enum { FAMILIES = 21 };

extern const struct family families[FAMILIES];

/* The family of a file out of many: of each family so many, in turn. */
const struct family *family_of(unsigned long number);

/* Writes one file of the family. The netlist has its records, as they are
   before any damage to the written bytes. */
void family_design(const struct family *family, struct rng *rng,
                   struct netlist *net, struct file *file);
void family_make(const struct family *family, struct rng *rng,
                 struct file *file);

#endif
