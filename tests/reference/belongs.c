/*
 * "Which finite forests a type has", as a search: from a set of places in a forest, the places that a type's forests lead to. A place is an entry's number
 * in the stretch that is looked at, and a set of places is a word of 64 bits.
 */
#include "belongs.h"

enum { MOST_STEPS = 20000 };

static unsigned steps;

static uint64_t leads(const struct typed_forest *f, unsigned type, uint64_t from);

/* "String one text leaf" */
static uint64_t leads_text(const struct typed_forest *f, uint64_t from) {
    uint64_t to = 0;
    size_t i;
    for (i = 0; i < f->count; i++)
        if (from >> i & 1 && f->entries[3 * i] == 64) to |= (uint64_t)2 << i;
    return to;
}

/* all of a stretch */
static int is_of(const struct typed_forest *f, unsigned type) { return (int)(leads(f, type, 1) >> f->count & 1); }

/* "l[T] one tree labelled l whose forest is in T" */
static uint64_t leads_element(const struct typed_forest *f, unsigned label, unsigned inside, uint64_t from) {
    uint64_t to = 0;
    size_t i;
    for (i = 0; i < f->count; i++) {
        const uint16_t *e = f->entries + 3 * i;
        struct typed_forest below = *f;
        if (!(from >> i & 1) || e[0] != 65 || e[1] != label) continue;
        below.entries = e + 3;
        below.count = e[2];
        if (is_of(&below, inside)) to |= (uint64_t)1 << (i + 1 + e[2]);
    }
    return to;
}

/* "T* none or more forests of T joined" */
static uint64_t leads_star(const struct typed_forest *f, unsigned type, uint64_t from) {
    uint64_t all = from, next = from;
    while (next) {
        next = leads(f, type, next) & ~all;
        all |= next;
    }
    return all;
}

static uint64_t leads(const struct typed_forest *f, unsigned type, uint64_t from) {
    const uint16_t *t = f->types + 3 * type;
    if (!from || ++steps > MOST_STEPS) return 0;
    switch (t[0]) {
    case 1: return from;
    case 2: return leads_text(f, from);
    case 3: return leads_element(f, t[1], t[2], from);
    case 4: return leads(f, t[2], leads(f, t[1], from));
    case 5: return leads(f, t[1], from) | leads(f, t[2], from);
    case 6: return leads_star(f, t[1], from);
    case 7: return leads_star(f, t[1], leads(f, t[1], from));
    case 8: return from | leads(f, t[1], from);
    default: return leads(f, f->definitions[t[1]], from);
    }
}

enum belongs belongs(const struct typed_forest *forest, unsigned type) {
    int is;
    if (forest->count > 63) return BELONGS_UNKNOWN;
    steps = 0;
    is = is_of(forest, type);
    if (steps > MOST_STEPS) return BELONGS_UNKNOWN;
    return is ? BELONGS : BELONGS_NOT;
}
