/*
 * Compares the verified operations (crates/probe, linked as a library) with the reference, answer by answer and every word of what was lent, on generated
 * inputs. An input is bytes, the lengths of the tables and the operation that gets them.
 *
 *   compare [SEED [INPUT]]    all inputs of a seed (1 without it); or only the one of that number, told in full
 *
 * It prints how often each cause of a refusal was met and how often each pair of neighbouring refusals was shown together. It fails (status 1) on any
 * difference, which it prints with its bytes (and it ends with the fifth one), on a cause met less than LEAST times, on a pair shown less than LEAST times,
 * and if the reference does not give what the paper says of its worked jobs.
 */
#include "belongs.h"
#include "emberstitch.h"
#include "generate.h"
#include "reference.h"
#include "start.h"

enum { LEAST = 100, MOST_DIFFERENCES = 5, OUT = 136 };

/* ---- The verified operations, as crates/probe and include/emberstitch.h say */

void probe_read_job(const uint8_t *, size_t, uint16_t *, size_t, uint16_t *, size_t, uint64_t *, size_t);
void probe_type_job(const uint8_t *, size_t, uint16_t *, size_t, uint16_t *, size_t, uint64_t *, size_t);
void probe_answer_job(const uint8_t *, size_t, uint16_t *, size_t, uint16_t *, size_t, uint8_t *, size_t, uint64_t *, size_t);
void probe_read_answer(const uint8_t *, size_t, uint16_t *, size_t, uint64_t *, size_t);

/* job, values, types, query, work. In its `out` the result's first entry stands at RUN_FIRST */
enum { RUN_FIRST = 120 };
void probe_run_job(const uint8_t *, size_t, const uint8_t *, size_t, uint16_t *, size_t, uint16_t *, size_t, uint16_t *, size_t, uint64_t *, size_t);

/* ---- Lines */

static void put_text(const char *text) {
    size_t count = 0;
    while (text[count]) count++;
    put_bytes(text, count);
}

static void put_number(uint64_t n) {
    char digits[20];
    size_t at = sizeof digits;
    do digits[--at] = (char)('0' + n % 10);
    while (n /= 10);
    put_bytes(digits + at, sizeof digits - at);
}

/* a number in a column */
static void put_column(uint64_t n, unsigned width) {
    uint64_t limit = 10;
    unsigned digits = 1;
    for (; n >= limit && digits < 19; limit *= 10) digits++;
    for (; digits < width; digits++) put_text(" ");
    put_number(n);
}

static void put_named(const char *name, uint64_t n) {
    put_text(name);
    put_text(" ");
    put_number(n);
}

static void put_hex(const char *name, const uint8_t *at, size_t count) {
    static const char digit[] = "0123456789abcdef";
    static char line[2 * MOST_BYTES];
    size_t i;
    for (i = 0; i < count; i++) {
        line[2 * i] = digit[at[i] / 16];
        line[2 * i + 1] = digit[at[i] % 16];
    }
    put_text(name);
    put_text(" ");
    put_bytes(line, 2 * count);
    put_text("\n");
}

/* ---- An input, and what both sides make of it */

enum operation { READ_JOB, TYPE_JOB, ANSWER_JOB, READ_ANSWER, RUN_JOB, CALL, OPERATIONS };
static const char *const operation_words[OPERATIONS] = {"read_job", "type_job", "answer_job", "read_answer", "run_job", "the C call"};

/* how long lent tables are at most here: past every capacity, and not a multiple of an entry */
enum { TYPE_WORDS = 3 * MOST_TYPES + 8, QUERY_WORDS = 4 * MOST_NODES + 8, WORK_WORDS = 3 * MOST_ENTRIES + 8, FILE_BYTES = 34000, GUARD = 4 };

static struct {
    enum operation operation;
    struct file bytes, values; /* a job or an answer file; a values file */
    size_t type_words, query_words, work_words, file_bytes;
} input;

/* one side's lent memory, with words behind that nobody may touch */
struct lent {
    uint16_t types[TYPE_WORDS + GUARD], query[QUERY_WORDS + GUARD], work[WORK_WORDS + GUARD];
    uint8_t file[FILE_BYTES + GUARD];
    uint64_t out[OUT];
};

static struct lent verified, wanted;
static struct reference_answer answer;

static uint64_t seed, number, only, calls, differences;
static uint64_t met[CAUSES], by_operation[OPERATIONS];

static int uses_query(void) { return input.operation == READ_JOB || input.operation == TYPE_JOB || input.operation == ANSWER_JOB || input.operation == RUN_JOB; }
static int uses_file(void) { return input.operation == ANSWER_JOB || input.operation == CALL; }
static size_t type_words(void) { return input.operation == CALL ? 0 : input.type_words; }
static size_t query_words(void) { return uses_query() ? input.query_words : 0; }
static size_t work_words(void) { return input.operation == RUN_JOB ? input.work_words : 0; }
static size_t file_bytes(void) { return uses_file() ? input.file_bytes : 0; }

/* old contents: no zeros, so that what is not written shows */
static void fill(struct lent *lent) {
    memset(lent->types, 0xa5, 2 * (type_words() + GUARD));
    memset(lent->query, 0xa5, 2 * (query_words() + GUARD));
    memset(lent->work, 0xa5, 2 * (work_words() + GUARD));
    memset(lent->file, 0xa5, file_bytes() + GUARD);
    memset(lent->out, 0, sizeof lent->out);
}

/* the reference's answer as probe lays it out */
static void put_out(uint64_t *out) {
    size_t i, k;
    out[0] = answer.refusal;
    out[1] = answer.place;
    out[2] = answer.types;
    out[3] = answer.nodes;
    out[4] = answer.result;
    out[5] = answer.length;
    out[6] = answer.definitions;
    out[7] = answer.variables;
    for (i = 0; i < MOST_DEFINITIONS; i++) out[8 + i] = answer.definition[i];
    for (i = 0; i < MOST_DECLARED; i++)
        for (k = 0; k < 3; k++) out[72 + 3 * i + k] = answer.variable[i][k];
    if (input.operation == RUN_JOB) out[RUN_FIRST] = answer.first;
}

static void ask_reference(void) {
    struct bytes bytes = {input.bytes.at, input.bytes.count}, values = {input.values.at, input.values.count};
    struct words types = {wanted.types, type_words()}, query = {wanted.query, query_words()}, work = {wanted.work, work_words()};
    struct buffer file = {wanted.file, file_bytes()};
    switch (input.operation) {
    case READ_JOB: reference_read_job(bytes, types, query, &answer); break;
    case TYPE_JOB: reference_type_job(bytes, types, query, &answer); break;
    case ANSWER_JOB: reference_answer_job(bytes, types, query, file, &answer); break;
    case READ_ANSWER: reference_read_answer(bytes, types, &answer); break;
    case RUN_JOB: reference_run_job(bytes, values, types, query, work, &answer); break;
    default: wanted.out[0] = reference_call(bytes, file, &answer); return;
    }
    put_out(wanted.out);
}

static void ask_verified(void) {
    const uint8_t *bytes = input.bytes.at;
    size_t count = input.bytes.count;
    struct lent *v = &verified;
    switch (input.operation) {
    case READ_JOB: probe_read_job(bytes, count, v->types, type_words(), v->query, query_words(), v->out, OUT); break;
    case TYPE_JOB: probe_type_job(bytes, count, v->types, type_words(), v->query, query_words(), v->out, OUT); break;
    case ANSWER_JOB: probe_answer_job(bytes, count, v->types, type_words(), v->query, query_words(), v->file, file_bytes(), v->out, OUT); break;
    case READ_ANSWER: probe_read_answer(bytes, count, v->types, type_words(), v->out, OUT); break;
    case RUN_JOB:
        probe_run_job(bytes, count, input.values.at, input.values.count, v->types, type_words(), v->query, query_words(), v->work, work_words(), v->out, OUT);
        break;
    default: v->out[0] = emberstitch_answer(bytes, count, v->file, file_bytes());
    }
}

/* ---- Telling an input */

static void put_answer(const char *who, const struct lent *lent) {
    size_t i;
    put_text("  ");
    put_text(who);
    if (input.operation == CALL) {
        put_named(" refusal", lent->out[0] >> 32);
        put_named(" place or length", lent->out[0] & 0xffffffffu);
    } else {
        put_named(" refusal", lent->out[0]);
        put_named(" place", lent->out[1]);
        put_named(" types", lent->out[2]);
        put_named(" nodes", lent->out[3]);
        put_named(" result", lent->out[4]);
        put_named(" length", lent->out[5]);
        for (i = 6; i < OUT; i++)
            if (lent->out[i]) {
                put_text(" [");
                put_number(i);
                put_text("]");
                put_number(lent->out[i]);
            }
    }
    put_text("\n");
}

static void put_input(void) {
    put_text("  ");
    put_text(operation_words[input.operation]);
    put_named(": type words", type_words());
    put_named(", query words", query_words());
    put_named(", work words", work_words());
    put_named(", answer bytes", file_bytes());
    put_text("\n");
    put_hex("  bytes", input.bytes.at, input.bytes.count);
    if (input.operation == RUN_JOB) put_hex("  values", input.values.at, input.values.count);
    put_answer("reference:", &wanted);
    put_text("  cause: ");
    put_text(reference_words(answer.cause));
    put_text("\n");
}

static void tell_words(const char *name, const uint16_t *a, const uint16_t *b, size_t count) {
    size_t i;
    for (i = 0; i < count && a[i] == b[i]; i++) continue;
    if (i == count) return;
    put_named(name, i);
    put_named(" verified", a[i]);
    put_named(" reference", b[i]);
    put_text("\n");
}

static void tell_difference(void) {
    size_t i;
    differences++;
    put_named("DIFFERENCE: seed", seed);
    put_named(" input", number);
    put_text("\n");
    put_input();
    put_answer("verified: ", &verified);
    tell_words("  first different word of types:", verified.types, wanted.types, type_words() + GUARD);
    tell_words("  first different word of query:", verified.query, wanted.query, query_words() + GUARD);
    tell_words("  first different word of work:", verified.work, wanted.work, work_words() + GUARD);
    for (i = 0; i < file_bytes() + GUARD; i++)
        if (verified.file[i] != wanted.file[i]) {
            put_named("  first different byte of the answer:", i);
            put_text("\n");
            return;
        }
}

static void tell_unsound(void) {
    differences++;
    put_named("DIFFERENCE: the result is not of its type: seed", seed);
    put_named(" input", number);
    put_text("\n");
    put_input();
}

/* ---- One input, asked of both */

static int is_same(void) {
    return !memcmp(verified.out, wanted.out, sizeof wanted.out) && !memcmp(verified.types, wanted.types, 2 * (type_words() + GUARD)) &&
           !memcmp(verified.query, wanted.query, 2 * (query_words() + GUARD)) && !memcmp(verified.work, wanted.work, 2 * (work_words() + GUARD)) &&
           !memcmp(verified.file, wanted.file, file_bytes() + GUARD);
}

static uint64_t sound, other_values, unknown;

/* the forests of the variables, told by the values file's records 66 as long as they are of their declared types */
static enum belongs values_belong(struct typed_forest *f) {
    size_t at = 0, i;
    for (i = 0; i < answer.variables; i++) {
        enum belongs is;
        f->count = input.values.at[at + 6] + 256u * input.values.at[at + 7];
        is = belongs(f, answer.variable[i][2]);
        if (is != BELONGS) return is;
        at += 8;
        for (; f->count; f->count--, f->entries += 3) at += f->entries[0] == 64 ? 6 : 8;
    }
    return BELONGS;
}

/* "For an accepted job and values of their declared types, the forest that an accepted run leaves belongs to the type that typing gave." */
static void check_sound(void) {
    struct typed_forest f = {wanted.types, answer.definition, wanted.work, 0};
    enum belongs is;
    if (input.operation != RUN_JOB || answer.refusal) return;
    is = values_belong(&f);
    if (is == BELONGS) {
        f.count = answer.length;
        is = belongs(&f, (unsigned)answer.result);
        if (is == BELONGS) sound++;
        if (is == BELONGS_NOT) tell_unsound();
    } else if (is == BELONGS_NOT) {
        other_values++;
    }
    if (is == BELONGS_UNKNOWN) unknown++;
}

/* asks both sides about the input; the refusal that the reference gives */
static unsigned ask(void) {
    number++;
    fill(&wanted);
    ask_reference();
    if (only && number != only) return answer.refusal;
    check_sound();
    if (only) put_input();
    fill(&verified);
    ask_verified();
    calls++;
    by_operation[input.operation]++;
    met[answer.cause]++;
    if (!is_same()) tell_difference();
    else if (only) put_answer("verified: ", &verified);
    return answer.refusal;
}

/* ---- Lengths of tables */

enum { ROOMY_TYPES = 600, ROOMY_QUERY = 400, ROOMY_WORK = 900, ROOMY_FILE = 2400 };

static void roomy_tables(void) {
    input.type_words = ROOMY_TYPES;
    input.query_words = ROOMY_QUERY;
    input.work_words = ROOMY_WORK;
    input.file_bytes = ROOMY_FILE;
}

static void full_tables(void) {
    input.type_words = 3 * MOST_TYPES + below(9);
    input.query_words = 4 * MOST_NODES + below(9);
    input.work_words = 3 * MOST_ENTRIES + below(9);
    input.file_bytes = FILE_BYTES;
}

/* mostly room enough, of any remainder; else few words */
static void some_tables(void) {
    roomy_tables();
    input.type_words += below(3);
    input.query_words += below(4);
    input.work_words += below(3);
    if (chance(12)) full_tables();
    if (chance(100)) input.type_words = below(3 * type_count() + 30);
    if (chance(70)) input.query_words = below(4 * node_count() + 8);
    if (chance(150)) input.file_bytes = below(200);
    if (chance(200)) input.work_words = below(100);
}

static enum operation some_operation(void) {
    static const unsigned char list[] = {READ_JOB, READ_JOB, TYPE_JOB, TYPE_JOB, TYPE_JOB, TYPE_JOB, ANSWER_JOB, ANSWER_JOB, ANSWER_JOB, CALL};
    return (enum operation)list[below(sizeof list)];
}

/* what the reference says of the input with room enough: whether it is accepted; `answer` has its counts */
static int measure(enum operation operation) {
    enum operation old = input.operation;
    input.operation = operation;
    full_tables();
    ask_reference();
    roomy_tables();
    input.operation = old;
    return answer.refusal == 0;
}

/* ---- Series: each makes inputs from the seed and the number of the item */

static const struct shape small = {4, 2, 2, 2, 0}, middle = {10, 3, 4, 3, 0}, large = {24, 6, 6, 4, 0}, wild = {8, 4, 4, 3, 30}, wilder = {10, 5, 5, 4, 90};

static void some_shape(void) {
    switch (below(8)) {
    case 0: make_job(&small); break;
    case 1: make_job(&large); break;
    case 2:
    case 3: make_job(&wild); break;
    case 4: make_job(&wilder); break;
    default: make_job(&middle);
    }
}

static void series_jobs(void) {
    some_shape();
    write_plan(&input.bytes);
    some_tables();
    input.operation = some_operation();
    ask();
}

static void series_damaged(void) {
    some_shape();
    write_damaged(&input.bytes, between(0, 3));
    some_tables();
    input.operation = some_operation();
    ask();
}

/* a job, cut at every byte */
static void series_cuts(void) {
    size_t whole;
    make_job(chance(500) ? &small : &middle);
    write_plan(&input.bytes);
    roomy_tables();
    input.operation = some_operation();
    for (whole = input.bytes.count + 1; whole-- && whole < 400;) {
        input.bytes.count = whole;
        ask();
    }
}

/* a job, with tables and buffers of every length that matters */
static void series_tables(void) {
    size_t types, nodes, length;
    make_job(&middle);
    write_plan(&input.bytes);
    if (!measure(ANSWER_JOB)) return;
    types = 3 * answer.types;
    nodes = 4 * answer.nodes;
    length = answer.length;
    if (types > 120) return;
    input.operation = chance(500) ? TYPE_JOB : ANSWER_JOB;
    for (input.type_words = 0; input.type_words < types + 3; input.type_words++) ask();
    roomy_tables();
    input.operation = READ_JOB;
    for (input.query_words = 0; input.query_words < nodes + 4; input.query_words++) ask();
    roomy_tables();
    for (input.file_bytes = 0; input.file_bytes < length + 3; input.file_bytes += between(1, 3)) {
        input.operation = chance(200) ? CALL : ANSWER_JOB;
        ask();
    }
}

/* the answer file of a job, written by the reference, as it is and damaged */
static void series_answered(void) {
    some_shape();
    write_plan(&input.bytes);
    if (!measure(ANSWER_JOB) || answer.length > 3000) return;
    memcpy(input.bytes.at, wanted.file, answer.length);
    input.bytes.count = answer.length;
    input.operation = READ_ANSWER;
    input.type_words = chance(500) ? 3 * answer.types + below(4) : below(3 * (unsigned)answer.types + 3);
    ask();
}

static void series_answer_files(void) {
    make_answer_file(chance(300) ? &small : chance(500) ? &middle : &wilder);
    if (chance(200)) plan[PLAN_TAIL].count = 0;
    write_damaged(&input.bytes, chance(300) ? 0 : between(1, 2));
    some_tables();
    input.operation = READ_ANSWER;
    ask();
}

static void series_answer_cuts(void) {
    size_t whole;
    make_answer_file(&middle);
    write_plan(&input.bytes);
    roomy_tables();
    input.operation = READ_ANSWER;
    for (whole = input.bytes.count + 1; whole--;) {
        input.bytes.count = whole;
        ask();
    }
    write_plan(&input.bytes);
    for (input.type_words = 0; input.type_words < 3 * type_count() + 3; input.type_words++) ask();
}

/* ---- Series of runs */

/* a job with a sound query, and values of its types */
static void make_run(const struct shape *shape, unsigned budget, unsigned loose) {
    make_job(shape);
    write_plan(&input.bytes);
    make_values(&input.values, budget, loose);
    roomy_tables();
    input.operation = RUN_JOB;
}

static void series_runs(void) {
    unsigned budget = between(1, 12);
    make_run(chance(200) ? &wild : chance(300) ? &large : &middle, budget, 100);
    some_tables();
    ask();
}

static void series_damaged_values(void) {
    unsigned budget = between(1, 10);
    make_run(chance(500) ? &small : &middle, budget, 0);
    damage_values(&input.values);
    ask();
}

static void series_cut_values(void) {
    size_t whole;
    make_run(&small, between(1, 8), 0);
    for (whole = input.values.count + 1; whole--;) {
        input.values.count = whole;
        ask();
    }
}

/* work tables of every length up to what the run needs */
static void series_work(void) {
    make_run(&middle, between(1, 6), 0);
    for (input.work_words = 0; input.work_words < 240; input.work_words++)
        if (ask() == 0) break;
}

/* trees inside each other, up to 65,535, and a query over them */
static void series_deep_values(void) {
    static const unsigned depths[] = {100, 8190, 8191, 8192, 8193, 30000, 65534, 65535};
    unsigned depth = depths[below(8)], leaf = below(2), i;
    for (i = 0; i < PLAN_SECTIONS; i++) plan[i].count = 0;
    add_record(&plan[PLAN_VARIABLES], 17, 3, 1, 0);
    if (chance(250)) {
        add_node(50, 3, 3, 0);
        add_node(33, 5, 0, 0);
        add_node(41, 0, 1, 0);
    } else {
        add_node(between(36, 38), 3, 0, 0);
    }
    write_plan(&input.bytes);
    input.values.count = 0;
    append_record(&input.values, 66, 3, depth);
    for (i = 1; i < depth; i++) append_record(&input.values, 65, 1 + i % 3, depth - i);
    append_record(&input.values, leaf ? 64 : 65, 4, 0);
    if (chance(200)) input.values.count -= between(1, 9);
    full_tables();
    if (chance(500)) input.work_words = between(3 * 8180, 3 * 8192);
    input.operation = RUN_JOB;
    ask();
}

/* ---- Series at the paper's limits */

static void fill_definitions(size_t count) {
    while (plan[PLAN_DEFINITIONS].count < count) add_record(&plan[PLAN_DEFINITIONS], 16, below(2), 0, 0);
}

static void fill_variables(size_t count) {
    unsigned v = 40;
    for (; plan[PLAN_VARIABLES].count < count; v++) add_record(&plan[PLAN_VARIABLES], 17 + below(2), v, 1, 0);
}

static void series_limits(void) {
    make_job(&small);
    if (chance(500)) fill_definitions(between(62, 66));
    else fill_variables(between(14, 18));
    write_plan(&input.bytes);
    roomy_tables();
    input.operation = some_operation();
    ask();
}

/* near 4,096 entries and 1,024 nodes */
static void series_full(void) {
    unsigned count = between(4088, 4100), nodes = between(1016, 1030), label = some_label();
    make_job(&small);
    if (chance(500)) {
        while (type_count() < count) {
            unsigned kind = between(3, 8), last = type_count() - 1;
            add_type_record(kind, kind == 3 ? label : last, chance(500) ? last : below(last));
        }
    } else {
        while (node_count() < nodes) add_node(34, label, node_count() - 1, 0);
    }
    write_plan(&input.bytes);
    full_tables();
    input.operation = some_operation();
    ask();
}

/* definitions that name each other in a chain, which an element ends, or a name of some definition of the chain */
static void series_chains(void) {
    unsigned count = chance(300) ? 64 : between(2, 12), step = chance(500) ? 1 : count - 1, first = below(count), i, last, entry[64];
    make_job(&small);
    plan[PLAN_DEFINITIONS].count = plan[PLAN_QUERY].count = plan[PLAN_TYPES].count = plan[PLAN_VARIABLES].count = 0;
    for (i = 0; i < count; i++) {
        unsigned kind = chance(150) ? 4 + below(2) : 6 + below(3);
        last = add_type_record(9, i == first ? below(count) : (i + step) % count, 0);
        if (i == first && chance(600)) last = add_type_record(3, some_label(), last);
        if (i == first && chance(100)) last = 1;
        entry[i] = chance(200) ? last : add_type_record(kind, last, chance(500) ? 1 : last);
    }
    if (chance(400)) add_type_record(9, below(count), 0);
    for (i = 0; i < count; i++) add_record(&plan[PLAN_DEFINITIONS], 16, entry[i], 0, 0);
    last = type_count() - 1;
    add_record(&plan[PLAN_VARIABLES], 18, 1, last, 0);
    last = add_type_record(3, 2, last);
    add_record(&plan[PLAN_VARIABLES], 17, 2, last, 0);
    last = add_node(36, 1, 0, 0);
    i = add_node(37 + below(2), 3, some_label(), 0);
    last = add_node(39, 3, last, i);
    i = add_node(37 + below(2), 2, below(3), 0);
    add_node(35, last, i, 0);
    write_plan(&input.bytes);
    roomy_tables();
    if (chance(300)) input.type_words = 3 * type_count() + below(40);
    input.operation = chance(100) ? READ_JOB : chance(500) ? TYPE_JOB : ANSWER_JOB;
    ask();
}

/* types that share: as trees they are larger than any table */
static void series_shared(void) {
    unsigned levels = between(3, 40), kind = between(4, 5), last, k, stars = below(20);
    make_job(&small);
    plan[PLAN_QUERY].count = 0;
    last = add_type_record(3, 2, below(2));
    for (k = 0; k < levels; k++) last = add_type_record(kind, last, last);
    for (k = 0; k < stars; k++) last = add_type_record(between(6, 8), last, 0);
    add_record(&plan[PLAN_VARIABLES], 18, 60, last, 0);
    add_record(&plan[PLAN_VARIABLES], 17, 61, add_type_record(3, 7, last), 0);
    switch (below(3)) {
    case 0:
        add_node(36, 60, 0, 0);
        add_node(37, 62, 3, 0);
        add_node(39, 62, 0, 1);
        break;
    case 1: add_node(37, 61, between(1, 3), 0); break;
    default: add_node(38, 61, 0, 0);
    }
    write_plan(&input.bytes);
    if (chance(200)) full_tables();
    else roomy_tables();
    input.operation = some_operation();
    ask();
}

/*
 * ---- Pairs: two neighbouring refusals in one input
 *
 * A pair's maker puts faults into a sound job: the first refusal's with 1, the second's with 2, both with 3. It counts as shown where each fault alone gets
 * its own refusal, and both together the one that comes first: in 1 to 12 and 16 to 21 the paper's order, in 13 to 16 that of the walk (`swapped`).
 */

static unsigned cut;   /* bytes that the maker takes off the end */
static int swapped;    /* the second fault stands before the first one in the walk */

static unsigned last_node(void) { return node_count() - 1; }

/* some record of the job */
static struct record_plan *some_record(void) {
    unsigned i = below(PLAN_TAIL);
    while (!plan[i].count) i = (i + 1) % PLAN_TAIL;
    return &plan[i].record[below((unsigned)plan[i].count)];
}

/* a last record with fields, so that there is something to cut */
static struct record_plan *end_by_element(void) {
    add_node(34, some_label(), last_node(), 0);
    return &plan[PLAN_QUERY].record[last_node()];
}

static unsigned unknown_kind(void) {
    static const unsigned kinds[] = {0, 1, 2, 10, 15, 19, 31, 42, 47, 54, 64, 65, 66, 80, 259, 65535};
    return kinds[below(sizeof kinds / sizeof *kinds)];
}

static unsigned wrong_length(unsigned length) {
    switch (below(4)) {
    case 0: return below(4);
    case 1: return length + 1;
    case 2: return length + 2;
    default: return 65535;
    }
}

static void damage_head(struct record_plan *r, int kind, int length) {
    unsigned k = unknown_kind(), l = wrong_length(r->length);
    if (kind) r->kind = k;
    if (length) r->length = l;
}

static void pair_kind_length(int which) { damage_head(some_record(), which & 1, which & 2); }

/* an unknown kind, and a record behind it of which only 1 to 3 bytes are left: in one record they cannot be together */
static void pair_kind_head(int which) {
    unsigned left = between(1, 3);
    damage_head(some_record(), which & 1, 0);
    add_record(&plan[PLAN_TAIL], 33, 0, 0, 0);
    if (which & 2) cut = 6 - left;
    else plan[PLAN_TAIL].count = 0;
}

static void pair_kind_cut(int which) {
    damage_head(end_by_element(), which & 1, 0);
    if (which & 2) cut = between(1, 4);
}

static void pair_length_cut(int which) {
    damage_head(end_by_element(), 0, which & 1);
    if (which & 2) cut = between(1, 4);
}

/* a last record that is in order (a text) or not, cut or not */
static void pair_cut_order(int which) {
    static const unsigned early[] = {6, 7, 8, 9, 16, 17, 18};
    unsigned kind = early[below(7)], bytes = between(1, 2);
    add_record(&plan[PLAN_TAIL], which & 2 ? kind : 33, 0, 0, 0);
    if (which & 1) cut = bytes;
}

/* one record more of a section, with room for it or not: `full` */
static void fill_section(unsigned section, int full) {
    if (!full) return;
    switch (section) {
    case PLAN_TYPES: input.type_words = 3 * type_count() + below(3); break;
    case PLAN_DEFINITIONS: fill_definitions(64); break;
    case PLAN_VARIABLES: fill_variables(16); break;
    default: input.query_words = 4 * node_count() + below(4);
    }
}

static void pair_order_capacity(int which) {
    static const unsigned kinds[] = {6, 16, 18};
    unsigned section = below(3);
    fill_section(section, which & 2);
    add_record(&plan[which & 1 ? PLAN_TAIL : section], kinds[section], section == 2 ? 63 : 0, 0, 0);
}

static void pair_order_reference(int which) {
    static const unsigned kinds[] = {6, 16, 18};
    unsigned section = below(3);
    add_record(&plan[which & 1 ? PLAN_TAIL : section], kinds[section], which & 2 ? 65535 : section == 2 ? 63 : 0, 0, 0);
}

static void pair_capacity_reference(int which) {
    static const unsigned kinds[] = {6, 16, 18, 34};
    unsigned section = below(4), good = section == 3 ? 1 : section == 2 ? 63 : 0;
    fill_section(section, which & 1);
    add_record(&plan[section], kinds[section], which & 2 ? 65535 : good, section == 3 ? last_node() : 0, 0);
}

/* no table for () and String, and something wrong with the first record */
static void pair_least_cut(int which) {
    unsigned words = below(6), whole = between(1, 3);
    if (which & 1) input.type_words = words;
    if (which & 2) {
        write_plan(&input.bytes);
        cut = (unsigned)input.bytes.count - whole;
    }
}

static void declare_twice(int type_wrong, int twice) {
    unsigned kind = 17 + below(2), again = 17 + below(2);
    add_record(&plan[PLAN_VARIABLES], kind, 50, 1, 0);
    add_record(&plan[PLAN_VARIABLES], again, twice ? 50 : 51, type_wrong ? 65535 : 1, 0);
}

static void pair_reference_twice(int which) { declare_twice(which & 1, which & 2); }

static void lose_root(int lost) {
    int all = chance(500);
    if (!lost) return;
    if (all) plan[PLAN_QUERY].count = 0;
    else add_node(48, 0, 0, 0);
}

static void pair_twice_root(int which) {
    declare_twice(0, which & 1);
    lose_root(which & 2);
}

/* a name of a definition that there is not, nor will be if a loop is put in */
static void undefined_name(int wanted) {
    unsigned definition = between((unsigned)plan[PLAN_DEFINITIONS].count + 2, 63);
    if (wanted) add_type_record(9, definition, 0);
}

static void pair_root_name(int which) {
    lose_root(which & 1);
    undefined_name(which & 2);
}

/* one or two definitions that reach themselves */
static void unguarded(int wanted) {
    unsigned next = (unsigned)plan[PLAN_DEFINITIONS].count, two = below(2), kind = between(5, 8), name, other;
    if (!wanted) return;
    name = add_type_record(9, next + two, 0);
    other = add_type_record(9, next, 0);
    name = add_type_record(kind, name, 0);
    add_record(&plan[PLAN_DEFINITIONS], 16, name, 0, 0);
    if (two) add_record(&plan[PLAN_DEFINITIONS], 16, other, 0, 0);
}

static void pair_name_loop(int which) {
    undefined_name(which & 1);
    unguarded(which & 2);
}

static void tangled(int wanted) {
    unsigned kind = between(4, 8), entry = add_type_record(kind, chance(500) ? 1 : 0, 0);
    if (wanted) add_record(&plan[PLAN_VARIABLES], 17, 52, kind == 5 ? 0 : entry, 0);
}

static void pair_loop_tree(int which) {
    unguarded(which & 1);
    tangled(which & 2);
}

static void misused(int wanted) {
    unsigned root = last_node(), twice = below(2);
    if (!wanted) return;
    if (!twice) add_node(33, 7, 0, 0);
    if (twice) add_node(35, root, root, 0);
    else add_node(34, 1, root, 0);
}

static void pair_tree_uses(int which) {
    tangled(which & 1);
    misused(which & 2);
}

/* ---- Faults in the walk: queries that 13, 14, 15 refuse; 16 refuses an element where the table is full */

static unsigned walk_fault(unsigned refusal) {
    unsigned q;
    switch (refusal) {
    case 13:
        switch (below(3)) {
        case 0: return add_node(36, 53, 0, 0);
        case 1: return add_node(37 + below(2), 53, 1, 0);
        default:
            q = add_node(51, 53, 0, 0);
            return add_node(41, q, add_node(32, 0, 0, 0), 0);
        }
    case 14:
        q = add_node(32, 0, 0, 0);
        return add_node(39 + below(2), 54, q, add_node(32, 0, 0, 0));
    case 15: return add_node(37 + below(2), 54, 0, 0);
    default: return add_node(34, 1, add_node(32, 0, 0, 0), 0);
    }
}

/* let 55 = one part return the other: it appends nothing itself */
static void walk_pair(unsigned first, unsigned second, int which) {
    unsigned full = between(0, 2), a, b;
    swapped = (int)below(2);
    plan[PLAN_QUERY].count = 0;
    add_record(&plan[PLAN_VARIABLES], 18, 54, 0, 0);
    a = which & 1 ? walk_fault(first) : add_node(32, 0, 0, 0);
    b = which & 2 ? walk_fault(second) : add_node(32, 0, 0, 0);
    add_node(40, 55, swapped ? b : a, swapped ? a : b);
    if (second == 16 && which & 2) input.type_words = 3 * type_count() + full;
}

static void pair_13_14(int which) { walk_pair(13, 14, which); }
static void pair_13_15(int which) { walk_pair(13, 15, which); }
static void pair_13_16(int which) { walk_pair(13, 16, which); }
static void pair_14_15(int which) { walk_pair(14, 15, which); }
static void pair_14_16(int which) { walk_pair(14, 16, which); }
static void pair_15_16(int which) { walk_pair(15, 16, which); }

static void pair_uses_scope(int which) {
    unsigned root = last_node();
    if (which & 2) add_node(35, root, walk_fault(13), 0);
    misused(which & 1);
}

/* for over a pair, whose prime appends, binding a variable in scope: "tested after the source, before prime" */
static void pair_bound_prime(int which) {
    unsigned pair = add_type_record(4, 1, 1);
    add_record(&plan[PLAN_VARIABLES], 18, 54, pair, 0);
    plan[PLAN_QUERY].count = 0;
    add_node(36, 54, 0, 0);
    add_node(32, 0, 0, 0);
    add_node(39, which & 1 ? 54 : 55, 0, 1);
    if (which & 2) input.type_words = 3 * type_count();
}

/* ---- Faults behind typing */

static void pair_full_short(int which) {
    size_t types, length;
    end_by_element();
    write_plan(&input.bytes);
    measure(ANSWER_JOB);
    types = answer.types;
    length = answer.length;
    if (which & 1) input.type_words = 3 * types - 1;
    if (which & 2) input.file_bytes = length - 1 - below(6);
}

/* a last variable, a tree variable of String, with so many texts */
static void last_tree(unsigned texts) {
    add_record(&plan[PLAN_VARIABLES], 17, 56, 1, 0);
    append_record(&input.values, 66, 56, texts);
    while (texts--) append_record(&input.values, 64, below(5), 0);
}

static void damage_end(int wanted) {
    unsigned how = below(3);
    if (!wanted) return;
    if (how == 0) append_record(&input.values, 64, 1, 0);
    else if (how == 1) input.values.count -= between(1, 5);
    else input.values.at[input.values.count++] = 0;
}

static void pair_full_values(int which) {
    size_t types;
    end_by_element();
    last_tree(1);
    write_plan(&input.bytes);
    measure(TYPE_JOB);
    types = answer.types;
    if (which & 1) input.type_words = 3 * types - 1;
    damage_end(which & 2);
}

static void pair_values_tree(int which) {
    unsigned wrong = 2 * below(2);
    last_tree(which & 2 ? wrong : 1);
    add_record(&plan[PLAN_VARIABLES], 18, 57, 1, 0);
    append_record(&input.values, 66, 57, 1);
    append_record(&input.values, 64, 9, 0);
    damage_end(which & 1);
}

static size_t base_entries;

static void pair_tree_load(int which) {
    unsigned texts = which & 1 ? 2 : 1;
    last_tree(texts);
    if (which & 2) input.work_words = 3 * (base_entries + texts) - 1 - below(3);
}

static void pair_load_run(int which) {
    unsigned rest = below(3);
    last_tree(1);
    plan[PLAN_QUERY].count = 0;
    add_node(which & 2 ? 33 : 32, 0, 0, 0);
    input.work_words = 3 * (base_entries + 1) + rest;
    if (which & 1) input.work_words -= 3;
}

/* ---- Pairs of an answer file */

static void pair_answer_reference_result(int which) {
    if (which & 2) plan[PLAN_TAIL].count = 0;
    if (which & 1) add_type_record(6, 65535, 0);
}

static void pair_answer_result_name(int which) {
    if (which & 1) plan[PLAN_TAIL].count = 0;
    undefined_name(which & 2);
}

static void pair_answer_order_reference(int which) {
    unsigned kind = below(2) ? 80 : 16;
    if (!(which & 1)) plan[PLAN_TAIL].count = 0;
    add_record(&plan[PLAN_TAIL], which & 1 ? kind : 80, which & 2 ? 65535 : 0, 0, 0);
}

static struct pair {
    const char *words;
    unsigned first, second;
    enum operation operation;
    void (*make)(int which);
    uint64_t shown;
} pairs[] = {
    {"5 at 0 and 1", 5, 1, ANSWER_JOB, pair_least_cut, 0},
    {"2 and 1 (under 4 bytes) behind it", 2, 1, ANSWER_JOB, pair_kind_head, 0},
    {"2 and 3 of a record", 2, 3, ANSWER_JOB, pair_kind_length, 0},
    {"2 and 1 (past the end)", 2, 1, READ_JOB, pair_kind_cut, 0},
    {"3 and 1 (past the end)", 3, 1, READ_JOB, pair_length_cut, 0},
    {"1 (past the end) and 4", 1, 4, READ_JOB, pair_cut_order, 0},
    {"4 and 5", 4, 5, READ_JOB, pair_order_capacity, 0},
    {"4 and 6", 4, 6, READ_JOB, pair_order_reference, 0},
    {"5 and 6", 5, 6, READ_JOB, pair_capacity_reference, 0},
    {"6 and 7", 6, 7, READ_JOB, pair_reference_twice, 0},
    {"7 and 8", 7, 8, READ_JOB, pair_twice_root, 0},
    {"8 and 9", 8, 9, READ_JOB, pair_root_name, 0},
    {"9 and 10", 9, 10, READ_JOB, pair_name_loop, 0},
    {"10 and 11", 10, 11, READ_JOB, pair_loop_tree, 0},
    {"11 and 12", 11, 12, READ_JOB, pair_tree_uses, 0},
    {"12 and 13", 12, 13, TYPE_JOB, pair_uses_scope, 0},
    {"13 and 14, as the walk meets them", 13, 14, TYPE_JOB, pair_13_14, 0},
    {"13 and 15, as the walk meets them", 13, 15, TYPE_JOB, pair_13_15, 0},
    {"13 and 16, as the walk meets them", 13, 16, TYPE_JOB, pair_13_16, 0},
    {"14 and 15, as the walk meets them", 14, 15, TYPE_JOB, pair_14_15, 0},
    {"14 and 16, as the walk meets them", 14, 16, TYPE_JOB, pair_14_16, 0},
    {"14 and 16 (prime) of a for", 14, 16, TYPE_JOB, pair_bound_prime, 0},
    {"15 and 16, as the walk meets them", 15, 16, TYPE_JOB, pair_15_16, 0},
    /* no operation gives both 17 and 18 */
    {"16 and 17", 16, 17, ANSWER_JOB, pair_full_short, 0},
    {"16 and 18", 16, 18, RUN_JOB, pair_full_values, 0},
    {"18 and 19", 18, 19, RUN_JOB, pair_values_tree, 0},
    {"19 and 20", 19, 20, RUN_JOB, pair_tree_load, 0},
    {"20 and 21", 20, 21, RUN_JOB, pair_load_run, 0},
    {"answer file: 2 and 3 of a record", 2, 3, READ_ANSWER, pair_kind_length, 0},
    {"answer file: 4 and 6", 4, 6, READ_ANSWER, pair_answer_order_reference, 0},
    {"answer file: 6 and 8", 6, 8, READ_ANSWER, pair_answer_reference_result, 0},
    {"answer file: 8 and 9", 8, 9, READ_ANSWER, pair_answer_result_name, 0},
    {"answer file: 9 and 10", 9, 10, READ_ANSWER, pair_name_loop, 0},
};

enum { PAIRS = sizeof pairs / sizeof *pairs };

/* the input of a pair, with the faults of `which`; the refusal */
static unsigned ask_pair(const struct pair *p, uint64_t item, int which) {
    seed_draws(seed + 1000, item * PAIRS + (uint64_t)(p - pairs));
    cut = 0;
    swapped = 0;
    if (p->operation == READ_ANSWER) make_answer_file(&middle);
    else make_job(&small);
    if (p->make == pair_kind_length && p->operation == READ_ANSWER) add_type_record(6, 0, 0);
    base_entries = make_values(&input.values, 4, 0);
    roomy_tables();
    p->make(which);
    write_plan(&input.bytes);
    input.bytes.count -= cut;
    input.operation = p->operation;
    return ask();
}

static void show_pair(struct pair *p, uint64_t item) {
    unsigned first = ask_pair(p, item, 1), second = ask_pair(p, item, 2), both = ask_pair(p, item, 3);
    if (first == p->first && second == p->second && both == (swapped ? second : first)) p->shown++;
}

static void series_pairs(void) {
    static uint64_t item;
    size_t i;
    for (i = 0; i < PAIRS; i++) show_pair(&pairs[i], item);
    item++;
}

/* ---- The paper's worked jobs, asked of the reference: so that it is not wrong in the same way as what it is compared with */

static uint64_t wrong;

static void expect(const char *what, int holds) {
    if (holds) return;
    put_text("WRONG: the reference on ");
    put_text(what);
    put_text("\n");
    wrong++;
}

static void job_j(void) {
    static const unsigned records[][4] = {{32, 0, 0, 0}, {34, 2, 0, 0}, {32, 0, 0, 0}, {34, 3, 2, 0}, {32, 0, 0, 0},
                                          {34, 2, 4, 0}, {35, 3, 5, 0}, {35, 1, 6, 0}, {36, 0, 0, 0}, {39, 0, 7, 8}};
    size_t i;
    for (i = 0; i < PLAN_SECTIONS; i++) plan[i].count = 0;
    for (i = 0; i < 10; i++) add_node(records[i][0], records[i][1], records[i][2], records[i][3]);
    write_plan(&input.bytes);
    input.values.count = 0;
    roomy_tables();
}

static void worked_j(void) {
    static const uint16_t table[] = {1, 0, 0, 2, 0, 0, 3, 2, 0, 3, 3, 0, 3, 2, 0, 4, 3, 4, 4, 2, 5, 5, 3, 4, 5, 2, 7, 7, 8, 0};
    job_j();
    input.operation = TYPE_JOB;
    expect("job J", ask() == 0 && answer.result == 9 && answer.types == 10 && !memcmp(wanted.types, table, sizeof table));
    input.type_words = 30;
    expect("job J in 10 entries", ask() == 0);
    input.type_words = 29;
    expect("job J in 9 entries", ask() == 16 && answer.place == 9);
    roomy_tables();
    input.operation = RUN_JOB;
    input.work_words = 18;
    expect("job J run in 6 entries", ask() == 0 && answer.first == 0 && answer.length == 3);
    input.work_words = 17;
    expect("job J run in 5 entries", ask() == 21 && answer.place == 8);
}

static void worked_p10(void) {
    static const uint8_t job[] = {8, 0, 18, 0, 0, 0, 1, 0, 6, 0, 36, 0, 0, 0}, file[] = {6, 0, 80, 0, 1, 0};
    memcpy(input.bytes.at, job, sizeof job);
    input.bytes.count = sizeof job;
    roomy_tables();
    input.operation = ANSWER_JOB;
    expect("P10", ask() == 0 && answer.result == 1 && answer.types == 2 && answer.length == 6 && !memcmp(wanted.file, file, 6));
    input.bytes.count = 13;
    expect("P11", ask() == 1 && answer.place == 8);
    input.bytes.count = 0;
    expect("P12", ask() == 8 && answer.place == 0);
}

/* P5 to P7: dos on a tree variable of type 2[3[()]] */
static void worked_dos(unsigned test, unsigned result, unsigned types) {
    size_t i;
    for (i = 0; i < PLAN_SECTIONS; i++) plan[i].count = 0;
    add_type_record(3, 3, 0);
    add_type_record(3, 2, 2);
    add_record(&plan[PLAN_VARIABLES], 17, 0, 3, 0);
    add_node(38, 0, test, 0);
    write_plan(&input.bytes);
    roomy_tables();
    input.operation = TYPE_JOB;
    expect("P5 to P7", ask() == 0 && answer.result == result && answer.types == types);
}

/* P8 and P9: definition 0 = opt of, or element around, name 0 */
static void worked_loop(unsigned kind, unsigned refusal) {
    size_t i;
    for (i = 0; i < PLAN_SECTIONS; i++) plan[i].count = 0;
    add_type_record(9, 0, 0);
    add_type_record(kind, kind == 3 ? 1 : 2, 2);
    add_record(&plan[PLAN_DEFINITIONS], 16, 3, 0, 0);
    add_node(32, 0, 0, 0);
    write_plan(&input.bytes);
    roomy_tables();
    input.operation = READ_JOB;
    expect("P8 and P9", ask() == refusal && answer.place == 0);
}

static void series_worked(void) {
    worked_j();
    worked_p10();
    worked_dos(0, 5, 6);
    worked_dos(9, 0, 4);
    worked_dos(3, 4, 5);
    worked_loop(8, 10);
    worked_loop(3, 0);
}

/* ---- All series */

static const struct series {
    const char *words;
    void (*make)(void);
    unsigned items;
} all_series[] = {
    {"worked jobs", series_worked, 1},
    {"jobs", series_jobs, 100000},
    {"damaged jobs", series_damaged, 150000},
    {"jobs cut at every byte", series_cuts, 500},
    {"tables of every length", series_tables, 800},
    {"answer files of jobs", series_answered, 15000},
    {"answer files", series_answer_files, 50000},
    {"answer files cut at every byte", series_answer_cuts, 300},
    {"limits", series_limits, 3000},
    {"full tables", series_full, 200},
    {"definitions in chains", series_chains, 20000},
    {"shared types", series_shared, 1000},
    {"pairs of refusals", series_pairs, LEAST + 50},
    {"runs", series_runs, 60000},
    {"damaged values", series_damaged_values, 60000},
    {"values cut at every byte", series_cut_values, 600},
    {"work tables of every length", series_work, 1500},
    {"deep values", series_deep_values, 40},
};

enum { SERIES = sizeof all_series / sizeof *all_series };

static void make_series(size_t i) {
    const struct series *s = &all_series[i];
    uint64_t before = number, k;
    for (k = 0; k < s->items && differences < MOST_DIFFERENCES; k++) {
        seed_draws(seed * SERIES + i, k);
        s->make();
    }
    put_column(number - before, 9);
    put_text("  ");
    put_text(s->words);
    put_text("\n");
}

/* ---- The report */

static uint64_t few;

static void report_line(uint64_t count, const char *words, unsigned refusal) {
    put_column(count, 9);
    put_text("  ");
    if (refusal) put_column(refusal, 2);
    else put_text("  ");
    put_text("  ");
    put_text(words);
    if (count < LEAST) {
        put_text("   TOO FEW");
        few++;
    }
    put_text("\n");
}

static void report_causes(void) {
    size_t i;
    put_text("causes, by the refusal that they give\n");
    for (i = 0; i < CAUSES; i++)
        report_line(met[i], reference_words((enum reference_cause)i), reference_refusal((enum reference_cause)i));
}

static void report_pairs(void) {
    size_t i;
    put_text("pairs of refusals in one input\n");
    for (i = 0; i < PAIRS; i++) report_line(pairs[i].shown, pairs[i].words, 0);
}

static void report_operations(void) {
    size_t i;
    put_text("operations compared\n");
    for (i = 0; i < OPERATIONS; i++) {
        put_column(by_operation[i], 9);
        put_text("  ");
        put_text(operation_words[i]);
        put_text("\n");
    }
}

static uint64_t number_of(const char *text) {
    uint64_t n = 0;
    for (; *text >= '0' && *text <= '9'; text++) n = 10 * n + (uint64_t)(*text - '0');
    return n;
}

int run_program(int count, char **word) {
    size_t i;
    seed = count > 1 ? number_of(word[1]) : 1;
    only = count > 2 ? number_of(word[2]) : 0;
    put_named("inputs of seed", seed);
    put_text("\n");
    for (i = 0; i < SERIES; i++) make_series(i);
    if (only) return differences != 0;
    if (differences >= MOST_DIFFERENCES) {
        put_text("ended: too many differences\n");
        return 1;
    }
    report_operations();
    report_causes();
    report_pairs();
    put_column(sound, 9);
    put_text("  runs on values of their types, whose result is of its type; values of other types ");
    put_number(other_values);
    put_named(", too large to tell", unknown);
    put_text("\n");
    put_named("compared", calls);
    put_named(" inputs: differences", differences);
    put_named(", causes or pairs too few", few);
    put_named(", wrong on worked jobs", wrong);
    put_text("\n");
    return differences || few || wrong;
}
