/*
 * Emberstitch for the layout engine: the one call that answers a job, its refusals, and the records of an answer file. C99, and C++.
 *
 * Link with target/staticlib/libemberstitch.a, which `tools/archive` proves and writes, for x86-64 Linux.
 */
#ifndef EMBERSTITCH_H
#define EMBERSTITCH_H

#include <stddef.h>
#include <stdint.h>

#ifdef __cplusplus
extern "C" {
#endif

/*
 * Answers a job: reads it, types its query, and writes the answer file into the buffer.
 *
 * IN       job_length bytes at job: any bytes at all, a job or not. They are only read.
 *          answer_length bytes at answer: a buffer of any length, whose old contents do not matter. It is written whole.
 *          Neither pointer is null, also where its length is 0, and the two stretches of memory do not overlap. This is all that is asked.
 * OUT      The number. Below 2^32 the job is accepted, and the number is the answer's length in bytes, at least 6: record 80 is always there.
 *          Otherwise the job is refused, and the number is 2^32 times the refusal plus its place. emberstitch_refusal and emberstitch_place take it
 *          apart.
 *          Accepted, the buffer has the answer file and then zeros. Refused, every byte of the buffer is zero.
 *
 * The same bytes and the same answer_length give the same number and the same buffer. Nothing is kept between calls, and no memory is asked for; the
 * tables behind the call, 4,096 type entries and 1,024 query nodes, are on the stack. How much stack that takes is measured in docs/.
 *
 * EMBERSTITCH_ANSWER_TOO_SHORT comes only after all other refusals: it says that the job is sound, and its place is the length that the answer needs. With
 * a buffer of that length, or a longer one, the same job is accepted. A buffer of EMBERSTITCH_ANSWER_MOST bytes is never too short.
 *
 * The number and the buffer are proved, for all bytes and all lengths: the promise is `Call` in crates/emberstitch/specs/Promises.antt; that a buffer of
 * EMBERSTITCH_ANSWER_MOST bytes is long enough is `never_short` in crates/emberstitch/proofs/Longest.antt. This header is no part of any proof.
 */
uint64_t emberstitch_answer(const uint8_t *job, size_t job_length, uint8_t *answer, size_t answer_length);

/* No answer has more bytes: 8 for each of 4,096 entries, 6 for each of 64 definitions, 6 for record 80. */
#define EMBERSTITCH_ANSWER_MOST 33158

/* The number, taken apart: the refusal, or 0 for an accepted job; and the refusal's place, or the answer's length. */
static inline uint32_t emberstitch_refusal(uint64_t number) { return (uint32_t)(number >> 32); }
static inline uint32_t emberstitch_place(uint64_t number) { return (uint32_t)number; }

/*
 * Refusals. The first one that applies is given: 1 to 7 record by record, then 8 to 12 in this order, 13 to 16 as typing meets them, 17 last.
 */
enum emberstitch_refusals {
    /* the place is the record's offset in the job, in bytes */
    EMBERSTITCH_RECORD_CUT = 1,        /* a record is cut off by the job's end */
    EMBERSTITCH_UNKNOWN_KIND = 2,      /* a kind that no job has */
    EMBERSTITCH_WRONG_LENGTH = 3,      /* a length that is wrong for the kind */
    EMBERSTITCH_OUT_OF_ORDER = 4,      /* types, definitions, variables, query: a record of an earlier section than the one before it */
    EMBERSTITCH_OVER_CAPACITY = 5,     /* more than 4,096 entries (with entries 0 and 1), 64 definitions, 16 variables or 1,024 query nodes */
    EMBERSTITCH_WRONG_REFERENCE = 6,   /* a reference to no lower entry of the right sort, a label of 0 or 65535, a variable or definition over 63 */
    EMBERSTITCH_DECLARED_TWICE = 7,    /* a variable that is declared already */
    /* the place is the job's length */
    EMBERSTITCH_NO_QUERY = 8,          /* no query record, or the last one is a condition */
    /* the place is the lowest such entry, definition, variable (the first declared), query node */
    EMBERSTITCH_UNDEFINED_NAME = 9,    /* a name without definition */
    EMBERSTITCH_UNGUARDED = 10,        /* a definition that reaches itself without entering an element */
    EMBERSTITCH_NO_TREE_TYPE = 11,     /* a tree variable whose type has other than unions of atoms */
    EMBERSTITCH_NOT_USED_ONCE = 12,    /* a query node, not the root, that is not used exactly once */
    /* the place is the query node */
    EMBERSTITCH_NOT_IN_SCOPE = 13,     /* a variable that is not in scope */
    EMBERSTITCH_BOUND_AGAIN = 14,      /* for or let binds a variable that is in scope */
    EMBERSTITCH_FOREST_VARIABLE = 15,  /* child or descendant-or-self on a forest variable */
    EMBERSTITCH_TYPE_TABLE_FULL = 16,  /* the node's rule appends a type, and there are 4,096 */
    /* the place is the length in bytes that the answer needs */
    EMBERSTITCH_ANSWER_TOO_SHORT = 17  /* the answer buffer is too short */
};

/*
 * An answer file is a list of records, and a record is a list of words of 16 bits, each with the low byte first: the length of the whole record in bytes
 * (4 and 2 for each field), the kind, the fields.
 *
 *   length kind  fields
 *   8      3     label, child    one tree with that label, whose forest is of the child
 *   8      4     left, right     a forest of the left one, then one of the right one
 *   8      5     left, right     a forest of either
 *   6      6     child           none or more forests of the child, joined
 *   6      7     child           one or more
 *   6      8     child           none or one
 *   6      9     definition      what that definition has
 *   6      16    type            a definition
 *   6      80    type            the result: the type of the query's output
 *
 * Records 3 to 9 come first: types, numbered from 2 on in this order. Type 0 is (), the empty forest, and type 1 is String, one text; neither has a record.
 * left, right and child are types with lower numbers than the record's own. Then come the definitions, numbered from 0 on; then record 80, once, the
 * last. Labels are 1 to 65534. Every name has its definition, and a definition leads back to itself only through an element.
 */
enum emberstitch_kinds {
    EMBERSTITCH_EMPTY = 1,             /* type 0, never in a file */
    EMBERSTITCH_STRING = 2,            /* type 1, never in a file */
    EMBERSTITCH_ELEMENT = 3,
    EMBERSTITCH_PAIR = 4,
    EMBERSTITCH_UNION = 5,
    EMBERSTITCH_STAR = 6,
    EMBERSTITCH_PLUS = 7,
    EMBERSTITCH_OPT = 8,
    EMBERSTITCH_NAME = 9,
    EMBERSTITCH_DEFINITION = 16,
    EMBERSTITCH_RESULT = 80
};

/* How many types, with 0 and 1, and how many definitions a file has at most. */
#define EMBERSTITCH_TYPES_MOST 4096
#define EMBERSTITCH_DEFINITIONS_MOST 64

#ifdef __cplusplus
}
#endif

#endif
