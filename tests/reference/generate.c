/*
 * Jobs, answer files and values files from a seed. A job is made as lists of records, a query with its variables in scope and each node used once, so that
 * most are accepted; what is refused comes from choices that are left wild, from damage to records and bytes, and from the faults that compare.c puts in.
 */
#include "generate.h"

#include "start.h"

/* ---- Numbers: xorshift64* */

static uint64_t state;

void seed_draws(uint64_t seed, uint64_t number) {
    state = (seed + 1) * 0x9e3779b97f4a7c15u ^ (number + 1) * 0xd1342543de82ef95u;
    state ^= state >> 29;
    if (!state) state = 1;
    below(2);
    below(2);
}

unsigned below(unsigned limit) {
    state ^= state >> 12;
    state ^= state << 25;
    state ^= state >> 27;
    return (unsigned)((state * 0x2545f4914f6cdd1du) >> 33) % limit;
}

unsigned between(unsigned first, unsigned last) { return first + below(last - first + 1); }
int chance(unsigned of_1000) { return below(1000) < of_1000; }

/* one of a list, each with its weight */
struct weighted {
    unsigned weight, choice;
};

static unsigned choose(const struct weighted *list, size_t count) {
    unsigned sum = 0, n;
    size_t i;
    for (i = 0; i < count; i++) sum += list[i].weight;
    n = below(sum);
    for (i = 0; n >= list[i].weight; i++) n -= list[i].weight;
    return list[i].choice;
}

#define CHOOSE(list) choose(list, sizeof list / sizeof *list)

/* ---- Records */

struct list_plan plan[PLAN_SECTIONS];

static unsigned fields_of(unsigned kind) {
    switch (kind) {
    case 32: case 48: case 49: return 0;
    case 6: case 7: case 8: case 9: case 16: case 33: case 36: case 51: case 53: case 64: case 80: return 1;
    case 39: case 40: return 3;
    default: return 2;
    }
}

static struct record_plan record_of(unsigned kind, unsigned a, unsigned b, unsigned c) {
    struct record_plan r;
    r.kind = kind;
    r.fields = fields_of(kind);
    r.length = 4 + 2 * r.fields;
    r.field[0] = a;
    r.field[1] = b;
    r.field[2] = c;
    r.field[3] = 0;
    return r;
}

void add_record(struct list_plan *list, unsigned kind, unsigned a, unsigned b, unsigned c) {
    if (list->count < MOST_PLANNED) list->record[list->count++] = record_of(kind, a, b, c);
}

/* ---- Types */

unsigned type_count(void) { return 2 + (unsigned)plan[PLAN_TYPES].count; }

unsigned add_type_record(unsigned kind, unsigned a, unsigned b) {
    add_record(&plan[PLAN_TYPES], kind, a, b, 0);
    return type_count() - 1;
}

static unsigned kind_of_type(unsigned entry) { return entry < 2 ? entry + 1 : plan[PLAN_TYPES].record[entry - 2].kind; }
static unsigned field_of_type(unsigned entry, unsigned i) { return plan[PLAN_TYPES].record[entry - 2].field[i]; }

unsigned some_label(void) {
    static const struct weighted labels[] = {{20, 1}, {20, 2}, {15, 3}, {10, 4}, {5, 300}, {4, 65534}};
    return CHOOSE(labels);
}

static unsigned some_test(void) {
    if (chance(300)) return 0;
    return chance(200) ? 65535 : some_label();
}

/* an entry, often a late one */
static unsigned some_type(void) {
    unsigned count = type_count();
    return chance(500) && count > 3 ? count - 1 - below(3) : below(count);
}

static int is_atoms(unsigned entry) {
    unsigned kind = kind_of_type(entry);
    if (kind == 5) return is_atoms(field_of_type(entry, 0)) && is_atoms(field_of_type(entry, 1));
    return kind == 2 || kind == 3;
}

static unsigned some_atoms(void) {
    unsigned tries, entry;
    for (tries = 0; tries < 8; tries++) {
        entry = some_type();
        if (is_atoms(entry)) return entry;
    }
    return 1;
}

static unsigned some_element(void) {
    unsigned tries, entry;
    for (tries = 0; tries < 8; tries++) {
        entry = some_type();
        if (kind_of_type(entry) == 3) return entry;
    }
    entry = some_type();
    return add_type_record(3, some_label(), entry);
}

static void make_types(unsigned count, unsigned definitions) {
    static const struct weighted kinds[] = {{36, 3}, {15, 4}, {22, 5}, {8, 6}, {6, 7}, {7, 8}, {9, 9}};
    while (count--) {
        unsigned kind = CHOOSE(kinds), first = some_type();
        if (kind == 9 && definitions) add_type_record(9, below(definitions), 0);
        else if (kind == 9 || kind == 3) add_type_record(3, some_label(), first);
        else add_type_record(kind, first, some_type());
    }
}

/* definitions: elements, so that no loop is without one; or, wild, whatever there is */
static void make_definitions(unsigned count, unsigned wild) {
    unsigned entry[64], i;
    for (i = 0; i < count; i++) entry[i] = chance(wild) ? some_type() : some_element();
    for (i = 0; i < count; i++) add_record(&plan[PLAN_DEFINITIONS], 16, entry[i], 0, 0);
}

/* ---- Variables in scope */

enum { NOT_IN_SCOPE, TREE, FOREST };
static unsigned char sort_of[64];

static unsigned some_number(void) { return chance(900) ? below(6) : below(40); }

static unsigned some_new_variable(void) {
    unsigned v = some_number();
    while (sort_of[v] != NOT_IN_SCOPE) v = below(40);
    return v;
}

/* a variable in scope, a tree variable if that is asked for; 64 where there is none */
static unsigned some_variable(int tree) {
    unsigned first = below(64), i, v;
    for (i = 0; i < 64; i++) {
        v = (first + i) % 64;
        if (sort_of[v] == TREE || (sort_of[v] == FOREST && !tree)) return v;
    }
    return 64;
}

static void declare_variable(unsigned wild) {
    unsigned v = some_new_variable();
    int tree = chance(550);
    sort_of[v] = tree ? TREE : FOREST;
    add_record(&plan[PLAN_VARIABLES], tree ? 17 : 18, v, tree && !chance(wild) ? some_atoms() : some_type(), 0);
}

/* ---- Queries */

static unsigned wildness;

unsigned node_count(void) { return (unsigned)plan[PLAN_QUERY].count; }

unsigned add_node(unsigned kind, unsigned a, unsigned b, unsigned c) {
    add_record(&plan[PLAN_QUERY], kind, a, b, c);
    return node_count() - 1;
}

/* a variable of the wanted sort, or, wild, any number; 64 for none */
static unsigned use_variable(int tree) { return chance(wildness) ? some_number() : some_variable(tree); }

static unsigned make_leaf(void) {
    static const struct weighted kinds[] = {{2, 32}, {4, 33}, {6, 36}, {5, 37}, {5, 38}};
    unsigned kind = CHOOSE(kinds), v = kind < 36 ? 0 : use_variable(kind != 36);
    if (kind == 33 || v == 64) return add_node(33, chance(500) ? below(4) : below(65536), 0, 0);
    if (kind == 32) return add_node(32, 0, 0, 0);
    return kind == 36 ? add_node(36, v, 0, 0) : add_node(kind, v, some_test(), 0);
}

static unsigned make_condition(unsigned depth) {
    static const struct weighted kinds[] = {{2, 48}, {2, 49}, {6, 50}, {6, 51}, {3, 52}, {3, 53}};
    unsigned kind = CHOOSE(kinds), v, w;
    if (kind >= 52 && depth == 0) kind = 51;
    if (kind == 50 || kind == 51) {
        v = use_variable(0);
        w = use_variable(0);
        return v == 64 || w == 64 ? add_node(48 + below(2), 0, 0, 0) : add_node(kind, v, w, 0);
    }
    if (kind < 50) return add_node(kind, 0, 0, 0);
    v = make_condition(depth - 1);
    return kind == 53 ? add_node(53, v, 0, 0) : add_node(52, v, make_condition(depth - 1), 0);
}

static unsigned make_query(unsigned depth);

/* for or let: the source does not see the variable */
static unsigned make_binding(unsigned kind, unsigned depth) {
    unsigned v = chance(wildness) ? some_number() : some_new_variable(), source, body;
    unsigned char old = sort_of[v];
    int body_first = chance(250);
    source = body_first ? 0 : make_query(depth - 1);
    sort_of[v] = kind == 39 ? TREE : FOREST;
    body = make_query(depth - 1);
    sort_of[v] = old;
    if (body_first) source = make_query(depth - 1);
    return add_node(kind, v, source, body);
}

/* two parts, in either order of their numbers */
static unsigned make_two(unsigned kind, unsigned depth) {
    unsigned first, second;
    int second_first = chance(250);
    second = second_first ? make_query(depth - 1) : 0;
    first = kind == 41 ? make_condition(2) : make_query(depth - 1);
    if (!second_first) second = make_query(depth - 1);
    return add_node(kind, first, second, 0);
}

static unsigned make_query(unsigned depth) {
    static const struct weighted kinds[] = {{4, 0}, {4, 34}, {5, 35}, {5, 39}, {3, 40}, {3, 41}};
    unsigned kind = depth == 0 ? 0 : CHOOSE(kinds), body;
    switch (kind) {
    case 0: return make_leaf();
    case 34:
        body = make_query(depth - 1);
        return add_node(34, some_label(), body, 0);
    case 39:
    case 40: return make_binding(kind, depth);
    default: return make_two(kind, depth);
    }
}

static void empty_plan(void) {
    size_t i;
    for (i = 0; i < PLAN_SECTIONS; i++) plan[i].count = 0;
    memset(sort_of, NOT_IN_SCOPE, sizeof sort_of);
}

void make_job(const struct shape *shape) {
    unsigned definitions = chance(500) ? between(0, shape->definitions) : 0, variables = between(0, shape->variables);
    empty_plan();
    make_types(between(0, shape->types), definitions);
    make_definitions(definitions, shape->wild * 8);
    while (variables--) declare_variable(shape->wild * 4);
    wildness = shape->wild;
    make_query(shape->depth);
}

void make_answer_file(const struct shape *shape) {
    unsigned definitions = chance(600) ? between(0, shape->definitions) : 0;
    empty_plan();
    make_types(between(0, shape->types), definitions);
    make_definitions(definitions, shape->wild * 8);
    add_record(&plan[PLAN_TAIL], 80, some_type(), 0, 0);
}

/* ---- Bytes */

static void put_word(struct file *to, unsigned word) {
    if (to->count + 2 > MOST_BYTES) return;
    to->at[to->count++] = (uint8_t)word;
    to->at[to->count++] = (uint8_t)(word >> 8);
}

static void put_record(struct file *to, const struct record_plan *r) {
    unsigned i;
    put_word(to, r->length);
    put_word(to, r->kind);
    for (i = 0; i < r->fields; i++) put_word(to, r->field[i]);
}

static void put_list(struct file *to, const struct list_plan *list) {
    size_t i;
    for (i = 0; i < list->count; i++) put_record(to, &list->record[i]);
}

void append_record(struct file *to, unsigned kind, unsigned a, unsigned b) {
    struct record_plan r = record_of(kind, a, b, 0);
    put_record(to, &r);
}

void write_plan(struct file *to) {
    size_t i;
    to->count = 0;
    for (i = 0; i < PLAN_SECTIONS; i++) put_list(to, &plan[i]);
}

/* ---- Damage */

static struct list_plan flat;

static void flatten(void) {
    size_t i, k;
    flat.count = 0;
    for (i = 0; i < PLAN_SECTIONS; i++)
        for (k = 0; k < plan[i].count && flat.count < MOST_PLANNED; k++) flat.record[flat.count++] = plan[i].record[k];
}

/* words at the limits of the paper, and near what is there */
static unsigned odd_word(unsigned old) {
    static const unsigned limits[] = {0, 1, 2, 15, 16, 17, 62, 63, 64, 65, 255, 256, 1023, 1024, 4095, 4096, 65534, 65535};
    switch (below(4)) {
    case 0: return limits[below(sizeof limits / sizeof *limits)];
    case 1: return (old + 65536 + between(0, 4) - 2) % 65536;
    case 2: return below(20);
    default: return below(65536);
    }
}

static unsigned odd_kind(void) {
    static const unsigned kinds[] = {0, 1, 2, 3, 9, 10, 15, 16, 17, 18, 19, 31, 32, 41, 42, 47, 48, 53, 54, 63, 64, 65, 66, 67, 79, 80, 81, 259, 65535};
    return chance(500) ? kinds[below(sizeof kinds / sizeof *kinds)] : below(90);
}

static void swap_records(size_t a, size_t b) {
    struct record_plan r = flat.record[a];
    flat.record[a] = flat.record[b];
    flat.record[b] = r;
}

static void remove_record(size_t at) {
    for (flat.count--; at < flat.count; at++) flat.record[at] = flat.record[at + 1];
}

static void repeat_record(size_t at) {
    size_t i;
    if (flat.count == MOST_PLANNED) return;
    for (i = flat.count++; i > at; i--) flat.record[i] = flat.record[i - 1];
}

/* the label of a record from a place on */
static void damage_label(size_t at) {
    unsigned label = chance(500) ? 0 : 65535;
    for (; at < flat.count; at++) {
        struct record_plan *r = &flat.record[at];
        if (r->kind != 3 && r->kind != 34 && r->kind != 65) continue;
        r->field[0] = label;
        return;
    }
}

static void damage_record(void) {
    size_t at = below((unsigned)flat.count);
    struct record_plan *r = &flat.record[at];
    switch (below(10)) {
    case 0:
    case 1:
    case 2:
        if (r->fields) {
            unsigned i = below(r->fields);
            r->field[i] = odd_word(r->field[i]);
        }
        break;
    case 3: *r = record_of(odd_kind(), r->field[0], r->field[1], r->field[2]); break;
    case 4: r->kind = odd_kind(); break;
    case 5: r->length = chance(500) ? odd_word(r->length) : below(12); break;
    case 6: remove_record(at); break;
    case 7: repeat_record(at); break;
    case 8: damage_label(at); break;
    default: swap_records(at, below((unsigned)flat.count));
    }
}

static void damage_bytes(struct file *to) {
    switch (below(3)) {
    case 0: to->count = below((unsigned)to->count + 1); break;
    case 1:
        if (to->count) to->at[below((unsigned)to->count)] = (uint8_t)below(256);
        break;
    default: {
        unsigned more = between(1, 5);
        while (more--) to->at[to->count++] = (uint8_t)(chance(500) ? below(8) : below(256));
    }
    }
}

void write_damaged(struct file *to, unsigned how_often) {
    flatten();
    while (how_often-- && flat.count) damage_record();
    to->count = 0;
    put_list(to, &flat);
    if (chance(250)) damage_bytes(to);
}

/* ---- Values */

/* what is still to be spent; the file has only 64, 65 and 66 */
static struct list_plan values;
static unsigned budget_left;

static void make_forest(unsigned entry, unsigned depth);

static void make_text(void) {
    if (budget_left) budget_left--;
    add_record(&values, 64, chance(700) ? below(3) : below(65536), 0, 0);
}

static void make_tree(unsigned label, unsigned inside, unsigned depth) {
    size_t own = values.count;
    if (budget_left) budget_left--;
    add_record(&values, 65, label, 0, 0);
    make_forest(inside, depth);
    values.record[own].field[1] = (unsigned)(values.count - own - 1);
}

static void make_times(unsigned entry, unsigned least, unsigned most, unsigned depth) {
    unsigned times = between(least, most);
    while (times--) make_forest(entry, depth);
}

/* a forest of a type; past the budget or the depth, nothing */
static void make_forest(unsigned entry, unsigned depth) {
    unsigned kind = kind_of_type(entry), a, b;
    if (kind == 1 || !budget_left || !depth) return;
    if (kind == 2) {
        make_text();
        return;
    }
    depth--;
    a = field_of_type(entry, 0);
    b = field_of_type(entry, 1);
    switch (kind) {
    case 3: make_tree(a, b, depth); break;
    case 4:
        make_forest(a, depth);
        make_forest(b, depth);
        break;
    case 5: make_forest(chance(500) ? a : b, depth); break;
    case 6: make_times(a, 0, 3, depth); break;
    case 7: make_times(a, 1, 3, depth); break;
    case 8: make_times(a, 0, 1, depth); break;
    default:
        if (a < plan[PLAN_DEFINITIONS].count) make_forest(plan[PLAN_DEFINITIONS].record[a].field[0], depth);
    }
}

size_t make_values(struct file *to, unsigned budget, unsigned loose) {
    size_t i, own;
    values.count = 0;
    for (i = 0; i < plan[PLAN_VARIABLES].count; i++) {
        const struct record_plan *r = &plan[PLAN_VARIABLES].record[i];
        unsigned entry = chance(loose) ? some_type() : r->field[1];
        own = values.count;
        budget_left = budget;
        add_record(&values, 66, r->field[0], 0, 0);
        if (entry < type_count()) make_forest(entry, 20);
        values.record[own].field[1] = (unsigned)(values.count - own - 1);
    }
    to->count = 0;
    put_list(to, &values);
    return values.count - plan[PLAN_VARIABLES].count;
}

void damage_values(struct file *to) {
    unsigned times = between(1, 2);
    flat.count = values.count;
    memcpy(flat.record, values.record, values.count * sizeof *values.record);
    while (times-- && flat.count) damage_record();
    to->count = 0;
    put_list(to, &flat);
    if (chance(250)) damage_bytes(to);
}
