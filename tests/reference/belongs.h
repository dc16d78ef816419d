/* Whether a forest is of a type, told from tables: see belongs.c. */
#ifndef BELONGS_H
#define BELONGS_H

#include <stddef.h>
#include <stdint.h>

struct typed_forest {
    const uint16_t *types;       /* a type table */
    const uint16_t *definitions; /* the definitions' entries */
    const uint16_t *entries;     /* a forest's first entry */
    size_t count;                /* its entries */
};

enum belongs { BELONGS_NOT, BELONGS, BELONGS_UNKNOWN };

/* BELONGS_UNKNOWN: the forest has more than 63 entries, or the type unfolds too far */
enum belongs belongs(const struct typed_forest *forest, unsigned type);

#endif
