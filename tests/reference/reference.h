/*
 * A second implementation of the paper (document 01), for tests and as a measure of cost: written from the paper and its listed readings, not from the
 * verified code, and with data structures of its own. Quotations in reference.c are the paper's sentences.
 *
 * It answers what the verified operations answer, fills the lent tables as they do, and tells besides for which CAUSE a refusal was given: one refusal has
 * several causes, and a test that never meets one of them has not tested it.
 *
 * C99 without a library but for memset, memcpy and memmove. Not for two calls at a time: what a call works with is static.
 */
#ifndef REFERENCE_H
#define REFERENCE_H

#include <stddef.h>
#include <stdint.h>

/* CAUSE(name, refusal, words) */
#define REFERENCE_CAUSES(CAUSE)                                                                                        \
    CAUSE(ACCEPTED, 0, "accepted")                                                                                     \
    CAUSE(CUT_HEAD, 1, "under 4 bytes left")                                                                           \
    CAUSE(CUT_BODY, 1, "runs past the end")                                                                            \
    CAUSE(KIND_UNKNOWN, 2, "a kind of no file")                                                                        \
    CAUSE(KIND_ELSEWHERE, 2, "a kind of another file or table")                                                        \
    CAUSE(LENGTH_SHORT, 3, "length too small")                                                                         \
    CAUSE(LENGTH_LONG, 3, "length too large")                                                                          \
    CAUSE(ORDER_TYPE, 4, "a type after a later section")                                                               \
    CAUSE(ORDER_DEFINITION, 4, "a definition after a later section")                                                   \
    CAUSE(ORDER_VARIABLE, 4, "a variable after the query began")                                                       \
    CAUSE(ORDER_RESULT, 4, "a record after record 80")                                                                 \
    CAUSE(CAPACITY_LEAST, 5, "type capacity under 2")                                                                  \
    CAUSE(CAPACITY_TYPES, 5, "no room for a type")                                                                     \
    CAUSE(CAPACITY_DEFINITIONS, 5, "a 65th definition")                                                                \
    CAUSE(CAPACITY_VARIABLES, 5, "a 17th variable")                                                                    \
    CAUSE(CAPACITY_NODES, 5, "no room for a query node")                                                               \
    CAUSE(TYPE_LABEL_0, 6, "type: label 0")                                                                            \
    CAUSE(TYPE_LABEL_65535, 6, "type: label 65535")                                                                    \
    CAUSE(TYPE_CHILD, 6, "type: a child that is not lower")                                                            \
    CAUSE(TYPE_NAME, 6, "type: a definition number over 63")                                                           \
    CAUSE(DEFINITION_TYPE, 6, "definition of no type")                                                                 \
    CAUSE(VARIABLE_OVER, 6, "declaration: a variable over 63")                                                         \
    CAUSE(VARIABLE_TYPE, 6, "declaration of no type")                                                                  \
    CAUSE(QUERY_LABEL_0, 6, "query: label 0")                                                                          \
    CAUSE(QUERY_LABEL_65535, 6, "query: label 65535")                                                                  \
    CAUSE(QUERY_VARIABLE, 6, "query: a variable over 63")                                                              \
    CAUSE(QUERY_PART, 6, "query: a part that is not lower")                                                            \
    CAUSE(QUERY_NO_QUERY, 6, "query: a condition for a query")                                                         \
    CAUSE(QUERY_NO_CONDITION, 6, "query: a query for a condition")                                                     \
    CAUSE(RESULT_TYPE, 6, "result of no type")                                                                         \
    CAUSE(TWICE_SAME, 7, "declared twice, in one kind")                                                                \
    CAUSE(TWICE_OTHER, 7, "declared twice, as tree and forest")                                                        \
    CAUSE(ROOT_MISSING, 8, "no query record")                                                                          \
    CAUSE(ROOT_CONDITION, 8, "the last record is a condition")                                                         \
    CAUSE(RESULT_MISSING, 8, "no record 80")                                                                           \
    CAUSE(NAME_UNDEFINED, 9, "a name without definition")                                                              \
    CAUSE(LOOP_ALONE, 10, "a definition that reaches itself alone")                                                    \
    CAUSE(LOOP_AMONG, 10, "a definition that reaches itself by others")                                                \
    CAUSE(TANGLED_EMPTY, 11, "a tree variable of type ()")                                                             \
    CAUSE(TANGLED_NAME, 11, "a tree variable of a name")                                                               \
    CAUSE(TANGLED_OTHER, 11, "a tree variable of , * + or ?")                                                          \
    CAUSE(TANGLED_BELOW, 11, "a tree variable of a union of other than atoms")                                         \
    CAUSE(UNUSED, 12, "a node that is not used")                                                                       \
    CAUSE(USED_AGAIN, 12, "a node that is used more than once")                                                        \
    CAUSE(UNBOUND_VARIABLE, 13, "variable: not in scope")                                                              \
    CAUSE(UNBOUND_CHILD, 13, "child: not in scope")                                                                    \
    CAUSE(UNBOUND_DOS, 13, "dos: not in scope")                                                                        \
    CAUSE(UNBOUND_EQUAL, 13, "equal: not in scope")                                                                    \
    CAUSE(UNBOUND_EMPTY, 13, "empty: not in scope")                                                                    \
    CAUSE(BOUND_FOR, 14, "for binds one in scope")                                                                     \
    CAUSE(BOUND_LET, 14, "let binds one in scope")                                                                     \
    CAUSE(FOREST_CHILD, 15, "child on a forest variable")                                                              \
    CAUSE(FOREST_DOS, 15, "dos on a forest variable")                                                                  \
    CAUSE(FULL_ELEMENT, 16, "full: element")                                                                           \
    CAUSE(FULL_PAIR, 16, "full: pair")                                                                                 \
    CAUSE(FULL_WHEN, 16, "full: when's opt")                                                                           \
    CAUSE(FULL_PRIME, 16, "full: prime")                                                                               \
    CAUSE(FULL_QUANT, 16, "full: body.q")                                                                              \
    CAUSE(FULL_CONTENT, 16, "full: content")                                                                           \
    CAUSE(FULL_FILTER, 16, "full: filter")                                                                             \
    CAUSE(FULL_UNION, 16, "full: dos, a union")                                                                        \
    CAUSE(FULL_STAR, 16, "full: dos, the star")                                                                        \
    CAUSE(ANSWER_SHORT, 17, "answer buffer too short")                                                                 \
    CAUSE(VALUES_CUT_HEAD, 18, "values: under 4 bytes left")                                                           \
    CAUSE(VALUES_CUT_BODY, 18, "values: runs past the end")                                                            \
    CAUSE(VALUES_UNKNOWN, 18, "values: unknown kind")                                                                  \
    CAUSE(VALUES_NO_VARIABLE, 18, "values: 64 or 65 where 66 is due")                                                  \
    CAUSE(VALUES_NO_ENTRY, 18, "values: 66 where 64 or 65 is due")                                                     \
    CAUSE(VALUES_LENGTH, 18, "values: wrong length")                                                                   \
    CAUSE(VALUES_LABEL_0, 18, "values: label 0")                                                                       \
    CAUSE(VALUES_LABEL_65535, 18, "values: label 65535")                                                               \
    CAUSE(VALUES_NOT_NEXT, 18, "values: not the next variable")                                                        \
    CAUSE(VALUES_STRETCH_TREE, 18, "values: a stretch past its tree")                                                  \
    CAUSE(VALUES_STRETCH_FOREST, 18, "values: a stretch past its variable")                                            \
    CAUSE(VALUES_MISSING_66, 18, "values: record 66 missing")                                                          \
    CAUSE(VALUES_MISSING_ENTRY, 18, "values: record 64 or 65 missing")                                                 \
    CAUSE(VALUES_SURPLUS, 18, "values: surplus")                                                                       \
    CAUSE(TREE_NONE, 19, "tree variable without a tree")                                                               \
    CAUSE(TREE_MANY, 19, "tree variable with more than one tree")                                                      \
    CAUSE(LOAD_FULL, 20, "no room for a value")                                                                        \
    CAUSE(RUN_TEXT, 21, "no room: text")                                                                               \
    CAUSE(RUN_ELEMENT, 21, "no room: element")                                                                         \
    CAUSE(RUN_VARIABLE, 21, "no room: variable")                                                                       \
    CAUSE(RUN_CHILD, 21, "no room: child")                                                                             \
    CAUSE(RUN_DOS, 21, "no room: dos")

enum reference_cause {
#define REFERENCE_CAUSE_NAME(name, refusal, words) name,
    REFERENCE_CAUSES(REFERENCE_CAUSE_NAME)
#undef REFERENCE_CAUSE_NAME
    CAUSES
};

/* the refusal that a cause belongs to, and its words; 0 for ACCEPTED */
unsigned reference_refusal(enum reference_cause cause);
const char *reference_words(enum reference_cause cause);

/* bytes to read, bytes to write, words to write */
struct bytes {
    const uint8_t *at;
    size_t count;
};
struct buffer {
    uint8_t *at;
    size_t count;
};
struct words {
    uint16_t *at;
    size_t count;
};

enum { MOST_TYPES = 4096, MOST_NODES = 1024, MOST_ENTRIES = 8192, MOST_DEFINITIONS = 64, MOST_DECLARED = 16, VARIABLES = 64 };

/* What an operation answers; 0 is whatever it does not tell, and everything but the first three after a refusal. */
struct reference_answer {
    enum reference_cause cause;
    unsigned refusal;
    size_t place;
    size_t types;  /* type entries of the table left */
    size_t nodes;  /* query nodes */
    size_t result; /* the result's type entry */
    size_t length; /* of the answer file in bytes; in a run, of the result in entries */
    size_t first;  /* in a run, the result's first entry */
    size_t definitions;
    size_t variables;
    uint16_t definition[MOST_DEFINITIONS]; /* its type */
    uint16_t variable[MOST_DECLARED][3];   /* 17 or 18, its number, its type */
};

void reference_read_job(struct bytes job, struct words types, struct words query, struct reference_answer *answer);
void reference_type_job(struct bytes job, struct words types, struct words query, struct reference_answer *answer);
void reference_answer_job(struct bytes job, struct words types, struct words query, struct buffer file, struct reference_answer *answer);
void reference_read_answer(struct bytes file, struct words types, struct reference_answer *answer);
void reference_run_job(struct bytes job, struct bytes values, struct words types, struct words query, struct words work, struct reference_answer *answer);

/* the C call: "gets a number, the answer's length or 2^32 times the refusal plus the place"; `answer` tells the cause besides */
uint64_t reference_call(struct bytes job, struct buffer file, struct reference_answer *answer);

#endif
