/*
 * Document 01 in C: see reference.h. Quotations are the paper's sentences; R1 to R28 are its listed readings (docs/DECISIONS.md).
 *
 * Types and queries are structures that point at their parts. Values are trees on a heap of their own, shared and counted, so that a copy of a tree is one
 * more pointer to it; how many entries the paper's work table would have is counted beside. A refusal is told by `refuse`, and what it answers (0 or a null
 * pointer) is handed up.
 */
#include "reference.h"

void *memset(void *to, int byte, size_t count);
void *memcpy(void *to, const void *from, size_t count);
void *memmove(void *to, const void *from, size_t count);

/* ---- Numbers of the paper */

enum {
    EMPTY = 1, STRING, ELEMENT, PAIR, UNION, STAR, PLUS, OPT, NAME,
    DEFINITION = 16, TREE_VARIABLE, FOREST_VARIABLE,
    Q_EMPTY = 32, Q_TEXT, Q_ELEMENT, Q_PAIR, Q_VARIABLE, Q_CHILD, Q_DOS, Q_FOR, Q_LET, Q_WHEN,
    C_TRUE = 48, C_FALSE, C_EQUAL, C_EMPTY, C_OR, C_NOT,
    V_TEXT = 64, V_TREE, V_VARIABLE,
    RESULT = 80
};

enum { ANY_TREE = 0, TEXT_LEAVES = 65535, LAST_LABEL = 65534 };

static const struct {
    unsigned char refusal;
    const char *words;
} causes[CAUSES] = {
#define ROW(name, refusal, words) {refusal, words},
    REFERENCE_CAUSES(ROW)
#undef ROW
};

unsigned reference_refusal(enum reference_cause cause) { return causes[cause].refusal; }
const char *reference_words(enum reference_cause cause) { return causes[cause].words; }

/* ---- What a call works with */

/* a type entry; its number is its place in the array */
struct type {
    uint16_t kind;
    uint16_t word;             /* an element's label, a name's definition */
    struct type *left, *right; /* its parts; `left` is the child of an element, a star, a plus, an opt */
    struct type *core;         /* what is left when star, plus, opt and names are taken off; null while a name in it is not looked up */
    unsigned quant;            /* its class; 0 while that is not known */
    int atoms;                 /* whether it is unions of atoms */
    unsigned mark;             /* the last search that met it */
    unsigned low;              /* in the search for loops: the earliest open entry that it reaches; CLOSED after */
};

/* a query node; its number is its place in the array */
struct node {
    uint16_t word[4];           /* kind and fields, as in the table */
    struct node *first, *second; /* its parts, in the order of the fields */
    unsigned uses;
};

struct declared {
    uint16_t kind, number;
    struct type *type;
};

static struct {
    struct reference_answer *answer;
    size_t type_capacity, type_count, node_capacity, node_count, definition_count, declared_count;
    struct type type[MOST_TYPES];
    struct type *definition[MOST_DEFINITIONS];
    struct declared declared[MOST_DECLARED];
    struct node node[MOST_NODES];
    struct type *result;
    unsigned marks; /* how many searches there were */
} at;

static size_t type_number(const struct type *t) { return (size_t)(t - at.type); }
static size_t node_number(const struct node *q) { return (size_t)(q - at.node); }
static size_t least(size_t a, size_t b) { return a < b ? a : b; }

static int refuse(enum reference_cause cause, size_t place) {
    at.answer->cause = cause;
    at.answer->refusal = causes[cause].refusal;
    at.answer->place = place;
    return 0;
}

/* ---- Type entries */

static int is_atom(const struct type *t) { return t->kind == STRING || t->kind == ELEMENT; }

/* "A class may allow none (? and *) or many (+ and *)": S figure 7, row and column in the order 1 ? + * */
enum { ONE = 1, MAYBE, SOME, ANY };
static const unsigned char comma[4][4] = {{SOME, SOME, SOME, SOME}, {SOME, ANY, SOME, ANY}, {SOME, SOME, SOME, SOME}, {SOME, ANY, SOME, ANY}};
static const unsigned char dot[4][4] = {{ONE, MAYBE, SOME, ANY}, {MAYBE, MAYBE, ANY, ANY}, {SOME, ANY, SOME, ANY}, {ANY, ANY, ANY, ANY}};

static struct type *definition_of(const struct type *name) { return at.definition[name->word]; }

/* "quant: () is ?; an atom 1; pair, union by "," and "|"; star, plus, opt are the child's with .*, .+, .?; a name its definition's." */
static unsigned quant(struct type *t) {
    if (t->quant) return t->quant;
    switch (t->kind) {
    case EMPTY: return t->quant = MAYBE;
    case STRING:
    case ELEMENT: return t->quant = ONE;
    case PAIR: return t->quant = comma[quant(t->left) - 1][quant(t->right) - 1];
    case UNION: return t->quant = dot[quant(t->left) - 1][quant(t->right) - 1];
    case STAR: return t->quant = dot[quant(t->left) - 1][ANY - 1];
    case PLUS: return t->quant = dot[quant(t->left) - 1][SOME - 1];
    case OPT: return t->quant = dot[quant(t->left) - 1][MAYBE - 1];
    default: return t->quant = quant(definition_of(t));
    }
}

/* through star, plus, opt and names */
static struct type *core(struct type *t) {
    if (!t->core) t->core = core(t->kind == NAME ? definition_of(t) : t->left);
    return t->core;
}

/* a new last entry; there is room */
static struct type *add_type(unsigned kind, unsigned word, struct type *left, struct type *right) {
    struct type *t = &at.type[at.type_count++];
    t->kind = (uint16_t)kind;
    t->word = (uint16_t)word;
    t->left = left;
    t->right = right;
    t->quant = 0;
    t->mark = 0;
    t->low = 0;
    t->atoms = is_atom(t) || (kind == UNION && left->atoms && right->atoms);
    t->core = kind == NAME ? 0 : kind >= STAR ? left->core : t;
    return t;
}

/* ---- Records */

static unsigned word_at(struct bytes file, size_t place) { return file.at[place] + 256u * file.at[place + 1]; }

/* how many fields a record of a kind has; -1 for a kind that no file has */
static int fields_of(unsigned kind) {
    switch (kind) {
    case Q_EMPTY:
    case C_TRUE:
    case C_FALSE: return 0;
    case STAR:
    case PLUS:
    case OPT:
    case NAME:
    case DEFINITION:
    case Q_TEXT:
    case Q_VARIABLE:
    case C_EMPTY:
    case C_NOT:
    case V_TEXT:
    case RESULT: return 1;
    case ELEMENT:
    case PAIR:
    case UNION:
    case TREE_VARIABLE:
    case FOREST_VARIABLE:
    case Q_ELEMENT:
    case Q_PAIR:
    case Q_CHILD:
    case Q_DOS:
    case Q_WHEN:
    case C_EQUAL:
    case C_OR:
    case V_TREE:
    case V_VARIABLE: return 2;
    case Q_FOR:
    case Q_LET: return 3;
    default: return -1;
    }
}

enum section { TYPES, DEFINITIONS, DECLARATIONS, QUERY, AFTER_RESULT };

struct record {
    size_t place;
    unsigned kind;
    unsigned field[3];
};

static int is_type_kind(unsigned kind) { return kind >= ELEMENT && kind <= NAME; }
static int is_query_kind(unsigned kind) { return kind >= Q_EMPTY && kind <= Q_WHEN; }
static int is_condition_kind(unsigned kind) { return kind >= C_TRUE && kind <= C_NOT; }

static int is_job_kind(unsigned kind) {
    return is_type_kind(kind) || (kind >= DEFINITION && kind <= FOREST_VARIABLE) || is_query_kind(kind) || is_condition_kind(kind);
}

/* "other kinds than these being 2" */
static int is_answer_kind(unsigned kind) { return is_type_kind(kind) || kind == DEFINITION || kind == RESULT; }

/* "in one record the order is 1 (under 4 bytes left), 2, 3, 1 (runs past the end)"; the record where none of them is given */
static int take_record(struct bytes file, size_t place, int (*is_kind)(unsigned), struct record *r) {
    size_t left = file.count - place, length, i;
    int fields;
    if (left < 4) return refuse(CUT_HEAD, place);
    r->place = place;
    r->kind = word_at(file, place + 2);
    fields = fields_of(r->kind);
    if (!is_kind(r->kind)) return refuse(fields < 0 && r->kind != EMPTY && r->kind != STRING ? KIND_UNKNOWN : KIND_ELSEWHERE, place);
    length = 4 + 2 * (size_t)fields;
    if (word_at(file, place) != length) return refuse(word_at(file, place) < length ? LENGTH_SHORT : LENGTH_LONG, place);
    if (length > left) return refuse(CUT_BODY, place);
    for (i = 0; i < 3; i++) r->field[i] = i < (size_t)fields ? word_at(file, place + 4 + 2 * i) : 0;
    return 1;
}

static size_t record_length(unsigned kind) { return 4 + 2 * (size_t)fields_of(kind); }

/* ---- Sections: 4, then 5, 6, 7 */

/* an entry that a record names; null where there is none */
static struct type *existing(unsigned number) { return number < at.type_count ? &at.type[number] : 0; }

/* "types: kinds 3 to 9 with the fields above, numbered from 2"; a definition comes later, so only its number is tested (R6) */
static int take_type(const struct record *r) {
    struct type *left = 0, *right = 0;
    unsigned a = r->field[0], b = r->field[1];
    if (at.type_count >= at.type_capacity) return refuse(CAPACITY_TYPES, r->place);
    switch (r->kind) {
    case ELEMENT:
        if (a == 0) return refuse(TYPE_LABEL_0, r->place);
        if (a > LAST_LABEL) return refuse(TYPE_LABEL_65535, r->place);
        left = existing(b);
        if (!left) return refuse(TYPE_CHILD, r->place);
        break;
    case NAME:
        if (a >= MOST_DEFINITIONS) return refuse(TYPE_NAME, r->place);
        break;
    case PAIR:
    case UNION:
        right = existing(b);
        if (!right) return refuse(TYPE_CHILD, r->place);
        /* fall through */
    default:
        left = existing(a);
        if (!left) return refuse(TYPE_CHILD, r->place);
        a = 0;
    }
    add_type(r->kind, a, left, right);
    return 1;
}

/* "16 definition (type), numbered from 0, at most 64" */
static int take_definition(const struct record *r) {
    struct type *t = existing(r->field[0]);
    if (at.definition_count == MOST_DEFINITIONS) return refuse(CAPACITY_DEFINITIONS, r->place);
    if (!t) return refuse(DEFINITION_TYPE, r->place);
    at.definition[at.definition_count++] = t;
    return 1;
}

static const struct declared *declared_as(unsigned number) {
    size_t i;
    for (i = 0; i < at.declared_count; i++)
        if (at.declared[i].number == number) return &at.declared[i];
    return 0;
}

/* "17 tree variable, 18 forest variable (variable 0 to 63, type), at most 16 in all" */
static int take_declaration(const struct record *r) {
    struct type *t = existing(r->field[1]);
    struct declared *new = &at.declared[at.declared_count];
    const struct declared *old;
    if (at.declared_count == MOST_DECLARED) return refuse(CAPACITY_VARIABLES, r->place);
    if (r->field[0] >= VARIABLES) return refuse(VARIABLE_OVER, r->place);
    if (!t) return refuse(VARIABLE_TYPE, r->place);
    old = declared_as(r->field[0]);
    if (old) return refuse(old->kind == r->kind ? TWICE_SAME : TWICE_OTHER, r->place);
    new->kind = (uint16_t)r->kind;
    new->number = (uint16_t)r->field[0];
    new->type = t;
    at.declared_count++;
    return 1;
}

/* a part of a query node: a lower node, of the sort that `is_kind` tells */
static struct node *part(const struct record *r, unsigned number, int (*is_kind)(unsigned), enum reference_cause other) {
    struct node *q;
    if (number >= at.node_count) {
        refuse(QUERY_PART, r->place);
        return 0;
    }
    q = &at.node[number];
    if (!is_kind(q->word[0])) {
        refuse(other, r->place);
        return 0;
    }
    q->uses++;
    return q;
}

static struct node *query_part(const struct record *r, unsigned number) { return part(r, number, is_query_kind, QUERY_NO_QUERY); }
static struct node *condition_part(const struct record *r, unsigned number) { return part(r, number, is_condition_kind, QUERY_NO_CONDITION); }

static int query_variable(const struct record *r, unsigned number) { return number < VARIABLES || refuse(QUERY_VARIABLE, r->place); }

/* the fields of a query record, by its kind */
static int take_parts(const struct record *r, struct node *q) {
    const unsigned *f = r->field;
    switch (r->kind) {
    case Q_ELEMENT:
        if (f[0] == 0) return refuse(QUERY_LABEL_0, r->place);
        if (f[0] > LAST_LABEL) return refuse(QUERY_LABEL_65535, r->place);
        return (q->first = query_part(r, f[1])) != 0;
    case Q_PAIR: return (q->first = query_part(r, f[0])) && (q->second = query_part(r, f[1]));
    case Q_VARIABLE:
    case Q_CHILD:
    case Q_DOS:
    case C_EMPTY: return query_variable(r, f[0]);
    case Q_FOR:
    case Q_LET: return query_variable(r, f[0]) && (q->first = query_part(r, f[1])) && (q->second = query_part(r, f[2]));
    case Q_WHEN: return (q->first = condition_part(r, f[0])) && (q->second = query_part(r, f[1]));
    case C_EQUAL: return query_variable(r, f[0]) && query_variable(r, f[1]);
    case C_OR: return (q->first = condition_part(r, f[0])) && (q->second = condition_part(r, f[1]));
    case C_NOT: return (q->first = condition_part(r, f[0])) != 0;
    default: return 1;
    }
}

static int take_node(const struct record *r) {
    struct node *q = &at.node[at.node_count];
    size_t i;
    if (at.node_count >= at.node_capacity) return refuse(CAPACITY_NODES, r->place);
    q->word[0] = (uint16_t)r->kind;
    for (i = 0; i < 3; i++) q->word[i + 1] = (uint16_t)r->field[i];
    q->first = q->second = 0;
    q->uses = 0;
    if (!take_parts(r, q)) return 0;
    at.node_count++;
    return 1;
}

static enum section section_of(unsigned kind) {
    if (kind <= NAME) return TYPES;
    if (kind == DEFINITION) return DEFINITIONS;
    if (kind <= FOREST_VARIABLE) return DECLARATIONS;
    return kind == RESULT ? AFTER_RESULT : QUERY;
}

/* "4 section out of order": an earlier section than the last one read (R5); behind record 80, everything (R4) */
static int take_order(const struct record *r, enum section *last) {
    enum section own = section_of(r->kind);
    if (*last == AFTER_RESULT) return refuse(ORDER_RESULT, r->place);
    if (own < *last) return refuse(own == TYPES ? ORDER_TYPE : own == DEFINITIONS ? ORDER_DEFINITION : ORDER_VARIABLE, r->place);
    *last = own;
    return 1;
}

static int take_result(const struct record *r) {
    at.result = existing(r->field[0]);
    return at.result != 0 || refuse(RESULT_TYPE, r->place);
}

static int take_content(const struct record *r) {
    switch (section_of(r->kind)) {
    case TYPES: return take_type(r);
    case DEFINITIONS: return take_definition(r);
    case DECLARATIONS: return take_declaration(r);
    case QUERY: return take_node(r);
    default: return take_result(r);
    }
}

/* "Records from the front"; no bytes left is the end (R3) */
static int take_records(struct bytes file, int (*is_kind)(unsigned)) {
    enum section last = TYPES;
    struct record r;
    size_t place = 0;
    while (place < file.count) {
        if (!take_record(file, place, is_kind, &r) || !take_order(&r, &last) || !take_content(&r)) return 0;
        place += record_length(r.kind);
    }
    return 1;
}

/* ---- 8 to 12 */

static int check_root(size_t length) {
    if (at.node_count == 0) return refuse(ROOT_MISSING, length);
    return is_query_kind(at.node[at.node_count - 1].word[0]) || refuse(ROOT_CONDITION, length);
}

/* "name without definition: lowest entry" */
static int check_names(void) {
    size_t i;
    for (i = 2; i < at.type_count; i++)
        if (at.type[i].kind == NAME && at.type[i].word >= at.definition_count) return refuse(NAME_UNDEFINED, i);
    return 1;
}

/*
 * "definition reaches itself without entering an element". The entries with steps from pair, union, star, plus, opt to their parts and from a name to its
 * definition's entry are a graph; a definition loops exactly where one of its names and its own entry reach each other, that is, lie in one component. These
 * are found as Tarjan does, in one search.
 */
enum { CLOSED = MOST_TYPES + 1 };

static struct {
    unsigned met, open_count;
    struct type *open[MOST_TYPES];
    unsigned component[MOST_TYPES];
} loops;

static void search_loops(struct type *t);

static void step_loops(struct type *from, struct type *to) {
    if (!to->low) search_loops(to);
    if (to->low < from->low) from->low = to->low;
}

static void close_component(struct type *t, unsigned base) {
    while (loops.open_count > base) {
        struct type *last = loops.open[--loops.open_count];
        last->low = CLOSED;
        loops.component[type_number(last)] = (unsigned)type_number(t);
    }
}

static void search_loops(struct type *t) {
    unsigned own = ++loops.met, base = loops.open_count;
    t->low = own;
    loops.open[loops.open_count++] = t;
    if (t->kind == NAME) {
        step_loops(t, definition_of(t));
    } else if (t->kind != ELEMENT) {
        if (t->left) step_loops(t, t->left);
        if (t->right) step_loops(t, t->right);
    }
    if (t->low == own) close_component(t, base);
}

static int loops_by(const struct type *name) { return loops.component[type_number(name)] == loops.component[type_number(definition_of(name))]; }

static int loops_among(unsigned number, unsigned component) {
    size_t i;
    for (i = 2; i < at.type_count; i++) {
        const struct type *t = &at.type[i];
        if (t->kind == NAME && t->word != number && loops.component[i] == component && loops_by(t)) return 1;
    }
    return 0;
}

/* "lowest definition" */
static int check_loops(void) {
    const struct type *lowest = 0;
    size_t i;
    if (at.definition_count == 0) return 1;
    loops.met = loops.open_count = 0;
    for (i = 0; i < at.type_count; i++)
        if (!at.type[i].low) search_loops(&at.type[i]);
    for (i = 2; i < at.type_count; i++)
        if (at.type[i].kind == NAME && (!lowest || at.type[i].word < lowest->word) && loops_by(&at.type[i])) lowest = &at.type[i];
    if (!lowest) return 1;
    return refuse(loops_among(lowest->word, loops.component[type_number(lowest)]) ? LOOP_AMONG : LOOP_ALONE, lowest->word);
}

static enum reference_cause tangle(const struct type *t) {
    switch (t->kind) {
    case EMPTY: return TANGLED_EMPTY;
    case NAME: return TANGLED_NAME;
    case UNION: return TANGLED_BELOW;
    default: return TANGLED_OTHER;
    }
}

/* "tree variable's type has other than unions of atoms: variable, first declared"; a name or () is other (R11) */
static int check_trees(void) {
    size_t i;
    for (i = 0; i < at.declared_count; i++) {
        const struct declared *d = &at.declared[i];
        if (d->kind == TREE_VARIABLE && !d->type->atoms) return refuse(tangle(d->type), d->number);
    }
    return 1;
}

/* "query node, not the root, not used exactly once: lowest node"; all records' uses count (R12) */
static int check_uses(void) {
    size_t i;
    for (i = 0; i + 1 < at.node_count; i++)
        if (at.node[i].uses != 1) return refuse(at.node[i].uses ? USED_AGAIN : UNUSED, i);
    return 1;
}

/* ---- Reading */

/* "Capacity is words/3, at most 4,096"; "Entry 0 is always () and entry 1 String" */
static int begin(struct words types, size_t query_words, struct reference_answer *answer) {
    memset(answer, 0, sizeof *answer);
    at.answer = answer;
    at.type_capacity = least(types.count / 3, MOST_TYPES);
    at.node_capacity = least(query_words / 4, MOST_NODES);
    at.type_count = at.node_count = at.definition_count = at.declared_count = 0;
    at.result = 0;
    at.marks = 0;
    if (at.type_capacity < 2) return refuse(CAPACITY_LEAST, 0);
    add_type(EMPTY, 0, 0, 0);
    add_type(STRING, 0, 0, 0);
    return 1;
}

static int read_job(struct bytes job, struct words types, struct words query, struct reference_answer *answer) {
    return begin(types, query.count, answer) && take_records(job, is_job_kind) && check_root(job.count) && check_names() && check_loops() && check_trees() &&
           check_uses();
}

/* ---- What is lent */

static void clear_words(struct words w, size_t from) { memset(w.at + from, 0, 2 * (w.count - from)); }

static void put_types(struct words w) {
    size_t i;
    for (i = 0; i < at.type_count; i++) {
        const struct type *t = &at.type[i];
        unsigned left = t->left ? (unsigned)type_number(t->left) : 0;
        int labelled = t->kind == ELEMENT || t->kind == NAME;
        w.at[3 * i] = t->kind;
        w.at[3 * i + 1] = (uint16_t)(labelled ? t->word : left);
        w.at[3 * i + 2] = (uint16_t)(t->kind == ELEMENT ? left : t->right ? type_number(t->right) : 0);
    }
    clear_words(w, 3 * at.type_count);
}

static void put_nodes(struct words w) {
    size_t i;
    for (i = 0; i < at.node_count; i++) memcpy(w.at + 4 * i, at.node[i].word, sizeof at.node[i].word);
    clear_words(w, 4 * at.node_count);
}

static void tell_given(struct reference_answer *answer) {
    size_t i;
    answer->types = at.type_count;
    answer->nodes = at.node_count;
    answer->definitions = at.definition_count;
    answer->variables = at.declared_count;
    for (i = 0; i < at.definition_count; i++) answer->definition[i] = (uint16_t)type_number(at.definition[i]);
    for (i = 0; i < at.declared_count; i++) {
        answer->variable[i][0] = at.declared[i].kind;
        answer->variable[i][1] = at.declared[i].number;
        answer->variable[i][2] = (uint16_t)type_number(at.declared[i].type);
    }
    if (at.result) answer->result = type_number(at.result);
}

/* "A refusal leaves every word of the lent tables .. zero"; accepted, "zeros after the entries" */
static void leave(int accepted, struct words types, struct words query) {
    if (!accepted) {
        clear_words(types, 0);
        clear_words(query, 0);
        return;
    }
    put_types(types);
    put_nodes(query);
    tell_given(at.answer);
}

void reference_read_job(struct bytes job, struct words types, struct words query, struct reference_answer *answer) {
    leave(read_job(job, types, query, answer), types, query);
}

/* ---- Typing */

struct binding {
    struct type *type; /* null: not in scope */
    int is_tree;
};

static struct binding scope[VARIABLES];

/* "16 type table full: query node whose rule appends" */
static struct type *append(unsigned kind, unsigned word, struct type *left, struct type *right, const struct node *asks, enum reference_cause full) {
    if (at.type_count >= at.type_capacity) {
        refuse(full, node_number(asks));
        return 0;
    }
    return add_type(kind, word, left, right);
}

/* "prime: atoms and () are themselves; pair and union do both sides and append a union; star, plus, opt do the child; a name its definition." */
static struct type *prime(struct type *t, const struct node *asks) {
    struct type *left, *right;
    t = core(t);
    if (t->kind != PAIR && t->kind != UNION) return t;
    left = prime(t->left, asks);
    if (!left) return 0;
    right = prime(t->right, asks);
    if (!right) return 0;
    return append(UNION, 0, left, right, asks, FULL_PRIME);
}

/* "content: union does both sides and appends a union; element answers its child; others 0." */
static struct type *content(struct type *t, const struct node *asks) {
    struct type *left, *right;
    if (t->kind == ELEMENT) return t->left;
    if (t->kind != UNION) return &at.type[0];
    left = content(t->left, asks);
    if (!left) return 0;
    right = content(t->right, asks);
    if (!right) return 0;
    return append(UNION, 0, left, right, asks, FULL_CONTENT);
}

/* "A test word of 0 keeps every tree, 65535 keeps text leaves, the rest keep trees of that label." */
static int passes(unsigned test, int is_text, unsigned label) { return test == ANY_TREE || (test == TEXT_LEAVES ? is_text : !is_text && label == test); }

static int atom_passes(unsigned test, const struct type *t) { return passes(test, t->kind == STRING, t->word); }

/*
 * filter with a test other than 0: "() is itself, an atom that passes is itself, one that doesn't is 0; pair, union, star, plus, opt do their parts and
 * append their kind anew, always; a name does its definition."
 */
static struct type *sift(struct type *t, unsigned test, const struct node *asks) {
    struct type *left, *right = 0;
    while (t->kind == NAME) t = definition_of(t);
    if (t->kind == EMPTY) return t;
    if (is_atom(t)) return atom_passes(test, t) ? t : &at.type[0];
    left = sift(t->left, test, asks);
    if (!left) return 0;
    if (t->right) {
        right = sift(t->right, test, asks);
        if (!right) return 0;
    }
    return append(t->kind, 0, left, right, asks, FULL_FILTER);
}

/* "filter: test 0 answers the entry itself" */
static struct type *filter(struct type *t, unsigned test, const struct node *asks) { return test == ANY_TREE ? t : sift(t, test, asks); }

/* marks what is reached "through pairs, unions, star, plus, opt and names, and again from the child of each element reached"; the highest one's number */
static size_t mark_below(struct type *from) {
    static struct type *open[MOST_TYPES];
    size_t count = 1, highest = 0;
    unsigned mark = ++at.marks;
    open[0] = from;
    from->mark = mark;
    while (count) {
        struct type *t = open[--count], *next[2];
        size_t i;
        if (type_number(t) > highest) highest = type_number(t);
        next[0] = t->kind == NAME ? definition_of(t) : t->left;
        next[1] = t->right;
        for (i = 0; i < 2; i++)
            if (next[i] && next[i]->mark != mark) {
                next[i]->mark = mark;
                open[count++] = next[i];
            }
    }
    return highest;
}

/* "Those that pass the test, by increasing entry number, are joined by unions leaning left; then append star. One atom: star alone. None: 0." */
static struct type *dos(struct type *from, unsigned test, const struct node *asks) {
    size_t i, highest = mark_below(from);
    struct type *joined = 0;
    for (i = 1; i <= highest; i++) {
        struct type *t = &at.type[i];
        if (t->mark != at.marks || !is_atom(t) || !atom_passes(test, t)) continue;
        joined = joined ? append(UNION, 0, joined, t, asks, FULL_UNION) : t;
        if (!joined) return 0;
    }
    return joined ? append(STAR, 0, joined, 0, asks, FULL_STAR) : &at.type[0];
}

/* "13 variable not in scope" */
static struct binding *look_up(unsigned variable, const struct node *asks, enum reference_cause unbound) {
    struct binding *b = &scope[variable];
    if (b->type) return b;
    refuse(unbound, node_number(asks));
    return 0;
}

/* the type of child's or dos's variable: "15 child or dos on a forest variable", behind 13 (R14) */
static struct type *tree_type(const struct node *q, enum reference_cause unbound, enum reference_cause forest) {
    struct binding *b = look_up(q->word[1], q, unbound);
    if (!b) return 0;
    if (b->is_tree) return b->type;
    refuse(forest, node_number(q));
    return 0;
}

static struct type *type_query(const struct node *q);

/* "in the body only" */
static struct type *type_body(const struct node *q, struct type *bound, int is_tree) {
    struct binding *b = &scope[q->word[1]];
    struct type *body;
    b->type = bound;
    b->is_tree = is_tree;
    body = type_query(q->second);
    b->type = 0;
    return body;
}

/* "for or let binds one in scope (tested after the source, before prime)" */
static int may_bind(const struct node *q, enum reference_cause bound) { return !scope[q->word[1]].type || refuse(bound, node_number(q)); }

/* "let: source, then v is a forest variable of that type in the body only; the body's entry." */
static struct type *type_let(const struct node *q) {
    struct type *source = type_query(q->first);
    if (!source || !may_bind(q, BOUND_LET)) return 0;
    return type_body(q, source, 0);
}

/* "U.1 appends nothing; ?, +, * append opt, plus, star." */
static struct type *times(struct type *t, unsigned class, const struct node *asks, enum reference_cause full) {
    static const unsigned char kind[] = {0, 0, OPT, PLUS, STAR};
    return class == ONE ? t : append(kind[class], 0, t, 0, asks, full);
}

/* "for: source T; prime(T); v is a tree variable of that type in the body only; then body.q with q = quant(T)." */
static struct type *type_for(const struct node *q) {
    struct type *source = type_query(q->first), *each, *body;
    if (!source || !may_bind(q, BOUND_FOR)) return 0;
    each = prime(source, q);
    if (!each) return 0;
    body = type_body(q, each, 1);
    return body ? times(body, quant(source), q, FULL_QUANT) : 0;
}

/* a condition appends nothing; its variables have to be in scope */
static int type_condition(const struct node *p) {
    switch (p->word[0]) {
    case C_EQUAL: return look_up(p->word[1], p, UNBOUND_EQUAL) && look_up(p->word[2], p, UNBOUND_EQUAL);
    case C_EMPTY: return look_up(p->word[1], p, UNBOUND_EMPTY) != 0;
    case C_OR: return type_condition(p->first) && type_condition(p->second);
    case C_NOT: return type_condition(p->first);
    default: return 1;
    }
}

/* "when: condition, then q, then append opt." */
static struct type *type_when(const struct node *q) {
    struct type *t;
    if (!type_condition(q->first)) return 0;
    t = type_query(q->second);
    return t ? append(OPT, 0, t, 0, q, FULL_WHEN) : 0;
}

/* "Element: body, then append element." */
static struct type *type_element(const struct node *q) {
    struct type *body = type_query(q->first);
    return body ? append(ELEMENT, q->word[1], body, 0, q, FULL_ELEMENT) : 0;
}

/* "Pair: both, then append pair." */
static struct type *type_pair(const struct node *q) {
    struct type *left = type_query(q->first), *right;
    if (!left) return 0;
    right = type_query(q->second);
    return right ? append(PAIR, 0, left, right, q, FULL_PAIR) : 0;
}

/* "child: content of v's type, then filter." */
static struct type *type_child(const struct node *q) {
    struct type *t = tree_type(q, UNBOUND_CHILD, FOREST_CHILD);
    if (!t) return 0;
    t = content(t, q);
    return t ? filter(t, q->word[2], q) : 0;
}

static struct type *type_dos(const struct node *q) {
    struct type *t = tree_type(q, UNBOUND_DOS, FOREST_DOS);
    return t ? dos(t, q->word[2], q) : 0;
}

static struct type *type_variable(const struct node *q) {
    struct binding *b = look_up(q->word[1], q, UNBOUND_VARIABLE);
    return b ? b->type : 0;
}

/* "The query is walked from the root, left field first. Each rule appends what it names, last, and answers an entry number." */
static struct type *type_query(const struct node *q) {
    switch (q->word[0]) {
    case Q_EMPTY: return &at.type[0];
    case Q_TEXT: return &at.type[1];
    case Q_ELEMENT: return type_element(q);
    case Q_PAIR: return type_pair(q);
    case Q_VARIABLE: return type_variable(q);
    case Q_CHILD: return type_child(q);
    case Q_DOS: return type_dos(q);
    case Q_FOR: return type_for(q);
    case Q_LET: return type_let(q);
    default: return type_when(q);
    }
}

static struct node *root(void) { return &at.node[at.node_count - 1]; }

static int type_job(struct bytes job, struct words types, struct words query, struct reference_answer *answer) {
    size_t i;
    if (!read_job(job, types, query, answer)) return 0;
    memset(scope, 0, sizeof scope);
    for (i = 0; i < at.declared_count; i++) {
        struct binding *b = &scope[at.declared[i].number];
        b->type = at.declared[i].type;
        b->is_tree = at.declared[i].kind == TREE_VARIABLE;
    }
    at.result = type_query(root());
    return at.result != 0;
}

void reference_type_job(struct bytes job, struct words types, struct words query, struct reference_answer *answer) {
    leave(type_job(job, types, query, answer), types, query);
}

/* ---- Answer files */

/* "the type records from entry 2 on, the definition records, and record 80 (result entry)" */
static size_t answer_length(void) {
    size_t i, length = record_length(DEFINITION) * at.definition_count + record_length(RESULT);
    for (i = 2; i < at.type_count; i++) length += record_length(at.type[i].kind);
    return length;
}

static uint8_t *put_word(uint8_t *to, size_t word) {
    to[0] = (uint8_t)word;
    to[1] = (uint8_t)(word >> 8);
    return to + 2;
}

static uint8_t *put_head(uint8_t *to, unsigned kind) { return put_word(put_word(to, record_length(kind)), kind); }

static uint8_t *put_type_record(uint8_t *to, const struct type *t) {
    to = put_head(to, t->kind);
    if (t->kind == ELEMENT || t->kind == NAME) to = put_word(to, t->word);
    if (t->left) to = put_word(to, type_number(t->left));
    if (t->right) to = put_word(to, type_number(t->right));
    return to;
}

static void write_answer(uint8_t *to) {
    size_t i;
    for (i = 2; i < at.type_count; i++) to = put_type_record(to, &at.type[i]);
    for (i = 0; i < at.definition_count; i++) to = put_word(put_head(to, DEFINITION), type_number(at.definition[i]));
    put_word(put_head(to, RESULT), type_number(at.result));
}

/* "17 after typing"; the place is the bytes needed */
static int answer_job(struct bytes job, struct words types, struct words query, struct buffer file, struct reference_answer *answer) {
    size_t length;
    memset(file.at, 0, file.count);
    if (!type_job(job, types, query, answer)) return 0;
    length = answer_length();
    if (length > file.count) return refuse(ANSWER_SHORT, length);
    write_answer(file.at);
    answer->length = length;
    return 1;
}

void reference_answer_job(struct bytes job, struct words types, struct words query, struct buffer file, struct reference_answer *answer) {
    leave(answer_job(job, types, query, file, answer), types, query);
}

/* "refusals 1 to 6, then 8 at the file's length if record 80 is missing, then 9 and 10" */
static int read_answer(struct bytes file, struct words types, struct reference_answer *answer) {
    if (!begin(types, 0, answer) || !take_records(file, is_answer_kind)) return 0;
    if (!at.result) return refuse(RESULT_MISSING, file.count);
    return check_names() && check_loops();
}

void reference_read_answer(struct bytes file, struct words types, struct reference_answer *answer) {
    struct words none = {types.at, 0};
    leave(read_answer(file, types, answer), types, none);
}

/* "The tables behind this call have full capacity." */
uint64_t reference_call(struct bytes job, struct buffer file, struct reference_answer *answer) {
    struct words types = {0, 3 * MOST_TYPES}, query = {0, 4 * MOST_NODES};
    if (answer_job(job, types, query, file, answer)) return answer->length;
    return ((uint64_t)answer->refusal << 32) + answer->place;
}

/* ---- Values: trees, shared and counted */

/* a tree in a list of trees; or the next free one */
struct cell {
    struct tree *tree;
    struct cell *next;
};

struct tree {
    uint16_t word;      /* its text or label */
    unsigned char is_text;
    unsigned size;      /* entries, itself with all below it */
    unsigned holders;   /* cells and places of the stack that hold it */
    struct cell *first; /* what is inside; or, of a free one, nothing */
    struct tree *next;  /* of a free one: the next free one */
};

/*
 * How many there can be at a time: every tree is on the stack or inside one that is, values too, and the trees on the stack have together as many entries as
 * there are below the work table's top.
 */
enum { MOST_TREES = MOST_ENTRIES + 1 };

static struct {
    size_t capacity; /* of the paper's work table */
    size_t tree_count, cell_count;
    struct tree *free_tree;
    struct cell *free_cell;
    struct tree tree[MOST_TREES];
    struct cell cell[MOST_TREES];
    size_t height;
    struct tree *stack[MOST_ENTRIES + 1];
} heap;

static void empty_heap(size_t work_words) {
    heap.capacity = least(work_words / 3, MOST_ENTRIES);
    heap.tree_count = heap.cell_count = heap.height = 0;
    heap.free_tree = 0;
    heap.free_cell = 0;
}

static struct tree *new_tree(int is_text, unsigned word) {
    struct tree *t = heap.free_tree;
    if (t) heap.free_tree = t->next;
    else t = &heap.tree[heap.tree_count++];
    t->is_text = (unsigned char)is_text;
    t->word = (uint16_t)word;
    t->size = 1;
    t->holders = 0;
    t->first = 0;
    return t;
}

static struct cell *new_cell(struct tree *t, struct cell *next) {
    struct cell *c = heap.free_cell;
    if (c) heap.free_cell = c->next;
    else c = &heap.cell[heap.cell_count++];
    c->tree = t;
    c->next = next;
    return c;
}

static void release(struct tree *t) {
    if (--t->holders) return;
    while (t->first) {
        struct cell *c = t->first;
        t->first = c->next;
        release(c->tree);
        c->next = heap.free_cell;
        heap.free_cell = c;
    }
    t->next = heap.free_tree;
    heap.free_tree = t;
}

static void push(struct tree *t) {
    t->holders++;
    heap.stack[heap.height++] = t;
}

/* the trees of the stack from a place on become the inside of a tree, which holds them from now on */
static void enclose(struct tree *t, size_t from) {
    while (heap.height > from) {
        struct tree *last = heap.stack[--heap.height];
        t->size += last->size;
        t->first = new_cell(last, t->first);
    }
}

/* the trees [from, to) of the stack go, and those above come down */
static void drop(size_t from, size_t to) {
    size_t i;
    for (i = from; i < to; i++) release(heap.stack[i]);
    memmove(heap.stack + from, heap.stack + to, (heap.height - to) * sizeof *heap.stack);
    heap.height -= to - from;
}

/* (64, text, 0) or (65, label, entries inside), parents before children; the place behind */
static uint16_t *put_tree(uint16_t *to, const struct tree *t) {
    const struct cell *c;
    to[0] = t->is_text ? V_TEXT : V_TREE;
    to[1] = t->word;
    to[2] = (uint16_t)(t->size - 1);
    to += 3;
    for (c = t->first; c; c = c->next) to = put_tree(to, c->tree);
    return to;
}

/* "the same, entry for entry" */
static int same_tree(const struct tree *a, const struct tree *b) {
    const struct cell *c, *d;
    if (a == b) return 1;
    if (a->is_text != b->is_text || a->word != b->word || a->size != b->size) return 0;
    for (c = a->first, d = b->first; c && d; c = c->next, d = d->next)
        if (!same_tree(c->tree, d->tree)) return 0;
    return c == d;
}

/* ---- Values files */

/* a variable's forest: trees of the stack, and where its record 66 stands */
struct forest {
    size_t from, count;
    size_t place;
};

static struct forest forests[VARIABLES];

/* how many records are still to come in the enclosing stretches, the innermost last: the trees that are open, and the variable's forest */
static struct {
    size_t count;
    size_t left[65536];
} stretch;

static enum reference_cause value_kind(unsigned kind, int entry_due) {
    if (kind != V_TEXT && kind != V_TREE && kind != V_VARIABLE) return VALUES_UNKNOWN;
    if (entry_due) return kind == V_VARIABLE ? VALUES_NO_ENTRY : ACCEPTED;
    return kind == V_VARIABLE ? ACCEPTED : VALUES_NO_VARIABLE;
}

/* "cut, unknown or unexpected kind, length" */
static enum reference_cause value_record(struct bytes file, size_t place, int entry_due) {
    size_t left = file.count - place;
    enum reference_cause wrong;
    unsigned kind;
    if (left == 0) return entry_due ? VALUES_MISSING_ENTRY : VALUES_MISSING_66;
    if (left < 4) return VALUES_CUT_HEAD;
    kind = word_at(file, place + 2);
    wrong = value_kind(kind, entry_due);
    if (wrong != ACCEPTED) return wrong;
    if (word_at(file, place) != record_length(kind)) return VALUES_LENGTH;
    return record_length(kind) > left ? VALUES_CUT_BODY : ACCEPTED;
}

/* "label .. stretch past its enclosing one" of a record 65; `room` is how many records may still stand behind it in its enclosing stretch */
static enum reference_cause value_tree(unsigned label, size_t inside, size_t room) {
    if (label == 0) return VALUES_LABEL_0;
    if (label > LAST_LABEL) return VALUES_LABEL_65535;
    if (inside > room) return stretch.count > 1 ? VALUES_STRETCH_TREE : VALUES_STRETCH_FOREST;
    return ACCEPTED;
}

/* one record 64 or 65 in the innermost stretch; a tree opens a stretch of its own, and stretches that are full are closed */
static enum reference_cause check_value(struct bytes file, size_t *place) {
    enum reference_cause wrong = value_record(file, *place, 1);
    size_t *left = &stretch.left[stretch.count - 1], inside = 0;
    if (wrong != ACCEPTED) return wrong;
    if (word_at(file, *place + 2) == V_TREE) {
        inside = word_at(file, *place + 6);
        wrong = value_tree(word_at(file, *place + 4), inside, *left - 1);
        if (wrong != ACCEPTED) return wrong;
        *place += 8;
    } else {
        *place += 6;
    }
    *left -= 1 + inside;
    if (inside) stretch.left[stretch.count++] = inside;
    while (stretch.count && stretch.left[stretch.count - 1] == 0) stretch.count--;
    return ACCEPTED;
}

/* "per declared variable in declared order, record 66 (v, n) and then n records"; trees are counted as the outermost stretch's records */
static enum reference_cause check_forest(struct bytes file, size_t *place, unsigned variable) {
    enum reference_cause wrong = value_record(file, *place, 0);
    struct forest *f = &forests[variable];
    size_t records;
    if (wrong != ACCEPTED) return wrong;
    if (word_at(file, *place + 4) != variable) return VALUES_NOT_NEXT;
    records = word_at(file, *place + 6);
    f->place = *place;
    f->count = 0;
    *place += 8;
    stretch.count = records != 0;
    stretch.left[0] = records;
    while (stretch.count) {
        f->count += stretch.count == 1;
        wrong = check_value(file, place);
        if (wrong != ACCEPTED) return wrong;
    }
    return ACCEPTED;
}

/* "18 over the whole values file": the offset of the record, or the file's length where it is missing (R23) */
static int check_values(struct bytes file) {
    enum reference_cause wrong = ACCEPTED;
    size_t place = 0, i;
    for (i = 0; i < at.declared_count && wrong == ACCEPTED; i++) wrong = check_forest(file, &place, at.declared[i].number);
    if (wrong == ACCEPTED && place < file.count) wrong = VALUES_SURPLUS;
    return wrong == ACCEPTED || refuse(wrong, place);
}

/* "19 tree variable without exactly one tree: offset of its 66" */
static int check_single(void) {
    size_t i;
    for (i = 0; i < at.declared_count; i++) {
        const struct forest *f = &forests[at.declared[i].number];
        if (at.declared[i].kind == TREE_VARIABLE && f->count != 1) return refuse(f->count ? TREE_MANY : TREE_NONE, f->place);
    }
    return 1;
}

/* "20 at the first record without room": the record that would be entry `capacity` (R24); 66 takes no entry */
static int check_room(struct bytes file) {
    size_t place = 0, entries = 0;
    while (place < file.count) {
        unsigned kind = word_at(file, place + 2);
        if (kind != V_VARIABLE && entries++ == heap.capacity) return refuse(LOAD_FULL, place);
        place += record_length(kind);
    }
    return 1;
}

/* one tree of a file that is right and has room, with all inside it, onto the stack; the place behind it */
static size_t load_tree(struct bytes file, size_t place) {
    int is_text = word_at(file, place + 2) == V_TEXT;
    struct tree *t = new_tree(is_text, word_at(file, place + 4));
    size_t from = heap.height, inside = is_text ? 0 : word_at(file, place + 6);
    place += is_text ? 6 : 8;
    while (inside) {
        place = load_tree(file, place);
        inside -= heap.stack[heap.height - 1]->size;
    }
    enclose(t, from);
    push(t);
    return place;
}

static size_t load_values(struct bytes file) {
    size_t place = 0, entries = 0, i, k;
    for (i = 0; i < at.declared_count; i++) {
        struct forest *f = &forests[at.declared[i].number];
        f->from = heap.height;
        place += record_length(V_VARIABLE);
        for (k = 0; k < f->count; k++) {
            place = load_tree(file, place);
            entries += heap.stack[heap.height - 1]->size;
        }
    }
    return entries;
}

/* ---- Running */

/*
 * `run(q, top)` evaluates a node at a place of the work table: its trees are pushed onto the stack, and the answer is the place behind them, or REFUSED.
 * "A node evaluated at place t leaves its forest from t on."
 */
enum { REFUSED = -1 };
typedef long place_t;

static place_t run(const struct node *q, place_t top);

/* the node that writes needs room for its entries: "21 running: query node that writes" */
static int has_room(const struct node *q, place_t top, size_t entries, enum reference_cause full) {
    return entries <= heap.capacity - (size_t)top || refuse(full, node_number(q));
}

/* a copy of a tree: one more holder */
static place_t copy(const struct node *q, struct tree *t, place_t top, enum reference_cause full) {
    if (!has_room(q, top, t->size, full)) return REFUSED;
    push(t);
    return top + (place_t)t->size;
}

static place_t run_text(const struct node *q, place_t top) {
    struct tree *t;
    if (!has_room(q, top, 1, RUN_TEXT)) return REFUSED;
    t = new_tree(1, q->word[1]);
    push(t);
    return top + 1;
}

/* "Element: its entry, then the body at the next place." */
static place_t run_element(const struct node *q, place_t top) {
    size_t from = heap.height;
    struct tree *t;
    if (!has_room(q, top, 1, RUN_ELEMENT)) return REFUSED;
    top = run(q->first, top + 1);
    if (top == REFUSED) return REFUSED;
    t = new_tree(0, q->word[1]);
    enclose(t, from);
    push(t);
    return top;
}

/* "Pair: one after the other." */
static place_t run_pair(const struct node *q, place_t top) {
    top = run(q->first, top);
    return top == REFUSED ? REFUSED : run(q->second, top);
}

static place_t run_variable(const struct node *q, place_t top) {
    const struct forest *f = &forests[q->word[1]];
    size_t i;
    for (i = 0; i < f->count && top != REFUSED; i++) top = copy(q, heap.stack[f->from + i], top, RUN_VARIABLE);
    return top;
}

static int tree_passes(unsigned test, const struct tree *t) { return passes(test, t->is_text, t->word); }

/* the tree of child's or dos's variable */
static struct tree *tree_of(const struct node *q) { return heap.stack[forests[q->word[1]].from]; }

/* "copies of the chosen trees in document order" */
static place_t run_child(const struct node *q, place_t top) {
    const struct cell *c;
    for (c = tree_of(q)->first; c && top != REFUSED; c = c->next)
        if (tree_passes(q->word[2], c->tree)) top = copy(q, c->tree, top, RUN_CHILD);
    return top;
}

/* "dos takes the tree and all below it, each whole." */
static place_t run_below(const struct node *q, struct tree *t, place_t top) {
    const struct cell *c;
    if (tree_passes(q->word[2], t)) top = copy(q, t, top, RUN_DOS);
    for (c = t->first; c && top != REFUSED; c = c->next) top = run_below(q, c->tree, top);
    return top;
}

/* "let: source at t, body above it, body moved down to t." */
static place_t run_let(const struct node *q, place_t top) {
    struct forest *f = &forests[q->word[1]];
    size_t from = heap.height;
    place_t above = run(q->first, top);
    place_t end;
    if (above == REFUSED) return REFUSED;
    f->from = from;
    f->count = heap.height - from;
    from = heap.height;
    end = run(q->second, above);
    if (end == REFUSED) return REFUSED;
    drop(f->from, from);
    return top + (end - above);
}

/* "for: source at t, the bodies one above the other for each tree in turn, then all moved down." */
static place_t run_for(const struct node *q, place_t top) {
    struct forest *f = &forests[q->word[1]];
    size_t from = heap.height, to, i;
    place_t above = run(q->first, top), end = above;
    if (above == REFUSED) return REFUSED;
    to = heap.height;
    for (i = from; i < to && end != REFUSED; i++) {
        f->from = i;
        f->count = 1;
        end = run(q->second, end);
    }
    if (end == REFUSED) return REFUSED;
    drop(from, to);
    return top + (end - above);
}

static int same_forest(const struct forest *a, const struct forest *b) {
    size_t i;
    if (a->count != b->count) return 0;
    for (i = 0; i < a->count; i++)
        if (!same_tree(heap.stack[a->from + i], heap.stack[b->from + i])) return 0;
    return 1;
}

/* "equal holds if both forests are the same, entry for entry; empty if there is none." */
static int holds(const struct node *p) {
    switch (p->word[0]) {
    case C_TRUE: return 1;
    case C_FALSE: return 0;
    case C_EQUAL: return same_forest(&forests[p->word[1]], &forests[p->word[2]]);
    case C_EMPTY: return forests[p->word[1]].count == 0;
    case C_OR: return holds(p->first) || holds(p->second);
    default: return !holds(p->first);
    }
}

static place_t run(const struct node *q, place_t top) {
    switch (q->word[0]) {
    case Q_EMPTY: return top;
    case Q_TEXT: return run_text(q, top);
    case Q_ELEMENT: return run_element(q, top);
    case Q_PAIR: return run_pair(q, top);
    case Q_VARIABLE: return run_variable(q, top);
    case Q_CHILD: return run_child(q, top);
    case Q_DOS: return run_below(q, tree_of(q), top);
    case Q_FOR: return run_for(q, top);
    case Q_LET: return run_let(q, top);
    default: return holds(q->first) ? run(q->second, top) : top; /* "when: q, or nothing" */
    }
}

/* "A run tries 1 to 16 first, then 18 over the whole values file, then 19, then 20 .., then 21." */
static int run_job(struct bytes job, struct bytes values, struct words types, struct words query, struct words work, struct reference_answer *answer) {
    size_t entries;
    place_t end;
    if (!type_job(job, types, query, answer)) return 0;
    empty_heap(work.count);
    if (!check_values(values) || !check_single() || !check_room(values)) return 0;
    entries = load_values(values);
    end = run(root(), (place_t)entries);
    if (end == REFUSED) return 0;
    answer->first = entries;
    answer->length = (size_t)end - entries;
    return 1;
}

/* the values, the result, zeros: the trees of the stack in their order */
static void put_work(struct words work) {
    uint16_t *to = work.at;
    size_t i;
    for (i = 0; i < heap.height; i++) to = put_tree(to, heap.stack[i]);
    clear_words(work, (size_t)(to - work.at));
}

void reference_run_job(struct bytes job, struct bytes values, struct words types, struct words query, struct words work, struct reference_answer *answer) {
    int accepted = run_job(job, values, types, query, work, answer);
    leave(accepted, types, query);
    if (accepted) put_work(work);
    else clear_words(work, 0);
}
