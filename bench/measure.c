/*
 * One call of one operation, verified (crates/probe, include/emberstitch.h) or reference (tests/reference), on cleared tables of full capacity, for bench/run.
 *
 *   measure WHO OPERATION HOW JOB [VALUES]
 *
 *   WHO         verified, reference
 *   OPERATION   read_job, type_job, answer_job, read_answer (on the answer file of the job, which the reference makes), run_job, call (the C call)
 *   HOW         once     the call, and nothing is printed
 *               none     all but the call: the difference of both in instructions is the call
 *               tell     its answer
 *               stack    how many bytes of a painted stack it wrote over, from the lowest one on
 *               same     whether both sides answer the same and leave the same tables: `same`, or `DIFFERENT` and status 1
 *
 * Every call gets a stack of its own, so that a limit of the system does not matter. For x86-64 Linux, without a C library.
 */
#include "emberstitch.h"
#include "reference.h"
#include "start.h"

void probe_read_job(const uint8_t *, size_t, uint16_t *, size_t, uint16_t *, size_t, uint64_t *, size_t);
void probe_type_job(const uint8_t *, size_t, uint16_t *, size_t, uint16_t *, size_t, uint64_t *, size_t);
void probe_answer_job(const uint8_t *, size_t, uint16_t *, size_t, uint16_t *, size_t, uint8_t *, size_t, uint64_t *, size_t);
void probe_read_answer(const uint8_t *, size_t, uint16_t *, size_t, uint64_t *, size_t);
void probe_run_job(const uint8_t *, size_t, const uint8_t *, size_t, uint16_t *, size_t, uint16_t *, size_t, uint16_t *, size_t, uint64_t *, size_t);

enum { TYPE_WORDS = 3 * MOST_TYPES, QUERY_WORDS = 4 * MOST_NODES, WORK_WORDS = 3 * MOST_ENTRIES, OUT = 121 };

static struct lent {
    uint16_t types[TYPE_WORDS], query[QUERY_WORDS], work[WORK_WORDS];
    uint8_t file[EMBERSTITCH_ANSWER_MOST];
} of_verified, of_reference;

static uint64_t out[OUT]; /* the verified side's answer, as crates/probe lays it out; of the C call the first is the number */
static struct reference_answer answer;
static uint64_t number;

/* ---- Files */

enum { MOST_BYTES = 1 << 20 };

static struct file {
    uint8_t at[MOST_BYTES];
    size_t count;
} job, values;

static struct bytes given; /* what the operation reads: the job, or its answer file */

static long call_system(long which, long a, long b, long c) {
    long got;
    __asm__ volatile("syscall" : "=a"(got) : "a"(which), "D"(a), "S"(b), "d"(c) : "rcx", "r11", "memory");
    return got;
}

static void put_text(const char *text) {
    size_t count = 0;
    while (text[count]) count++;
    put_bytes(text, count);
}

static void complain(const char *what, const char *of) {
    put_text("measure: ");
    put_text(what);
    put_text(of);
    put_text("\n");
    leave_program(2);
}

static void read_file(struct file *f, const char *name) {
    long from = call_system(2, (long)name, 0, 0), got;
    if (from < 0) complain("cannot be read: ", name);
    while ((got = call_system(0, from, (long)(f->at + f->count), (long)(MOST_BYTES - f->count))) > 0) f->count += (size_t)got;
    if (got < 0 || f->count == MOST_BYTES) complain("cannot be read: ", name);
    call_system(3, from, 0, 0);
}

/* ---- The calls */

#define V of_verified
#define R of_reference

static void verified_read_job(void) { probe_read_job(given.at, given.count, V.types, TYPE_WORDS, V.query, QUERY_WORDS, out, OUT); }
static void verified_type_job(void) { probe_type_job(given.at, given.count, V.types, TYPE_WORDS, V.query, QUERY_WORDS, out, OUT); }
static void verified_answer_job(void) {
    probe_answer_job(given.at, given.count, V.types, TYPE_WORDS, V.query, QUERY_WORDS, V.file, sizeof V.file, out, OUT);
}
static void verified_read_answer(void) { probe_read_answer(given.at, given.count, V.types, TYPE_WORDS, out, OUT); }
static void verified_run_job(void) {
    probe_run_job(given.at, given.count, values.at, values.count, V.types, TYPE_WORDS, V.query, QUERY_WORDS, V.work, WORK_WORDS, out, OUT);
}
static void verified_call(void) { number = emberstitch_answer(given.at, given.count, V.file, sizeof V.file); }

static struct words types = {R.types, TYPE_WORDS}, query = {R.query, QUERY_WORDS}, work = {R.work, WORK_WORDS};
static struct buffer file = {R.file, sizeof R.file};

static void reference_does_read_job(void) { reference_read_job(given, types, query, &answer); }
static void reference_does_type_job(void) { reference_type_job(given, types, query, &answer); }
static void reference_does_answer_job(void) { reference_answer_job(given, types, query, file, &answer); }
static void reference_does_read_answer(void) { reference_read_answer(given, types, &answer); }
static void reference_does_run_job(void) {
    struct bytes v = {values.at, values.count};
    reference_run_job(given, v, types, query, work, &answer);
}
static void reference_does_call(void) { number = reference_call(given, file, &answer); }

static void nothing(void) {}

static const struct operation {
    const char *name;
    void (*verified)(void), (*reference)(void);
} operations[] = {
    {"read_job", verified_read_job, reference_does_read_job},
    {"type_job", verified_type_job, reference_does_type_job},
    {"answer_job", verified_answer_job, reference_does_answer_job},
    {"read_answer", verified_read_answer, reference_does_read_answer},
    {"run_job", verified_run_job, reference_does_run_job},
    {"call", verified_call, reference_does_call},
};

enum { OPERATIONS = sizeof operations / sizeof *operations };

/* ---- A stack of its own */

enum { STACK_WORDS = 1 << 21 };
static uint64_t stack[STACK_WORDS] __attribute__((aligned(64)));
static const uint64_t paint = 0xa5c3a5c3a5c3a5c3u;

void call_on(void *top, void (*call)(void));
__asm__(".globl call_on\ncall_on:\n    push %rbp\n    mov %rsp, %rbp\n    mov %rdi, %rsp\n    call *%rsi\n    mov %rbp, %rsp\n    pop %rbp\n    ret\n");

static void do_call(void (*call)(void)) { call_on(stack + STACK_WORDS, call); }

static size_t stack_of(void (*call)(void)) {
    size_t i;
    for (i = 0; i < STACK_WORDS; i++) stack[i] = paint;
    do_call(call);
    for (i = 0; i < STACK_WORDS && stack[i] == paint; i++) continue;
    if (i == 0) complain("the painted stack is too short", "");
    return 8 * (STACK_WORDS - i);
}

/* ---- What is printed */

static void put_number(uint64_t n) {
    char digits[20];
    size_t at = sizeof digits;
    do digits[--at] = (char)('0' + n % 10);
    while (n /= 10);
    put_bytes(digits + at, sizeof digits - at);
}

/* the numbers of either side's answer: the refusal, its place, the result's type, the answer's or the result's length */
struct told {
    uint64_t refusal, place, result, length;
};

static struct told told_by(int is_verified, int is_call) {
    struct told t = {0, 0, 0, 0};
    if (is_call) {
        t.refusal = number >> 32;
        if (t.refusal) t.place = number & 0xffffffffu;
        else t.length = number;
    } else if (is_verified) {
        t.refusal = out[0];
        t.place = out[1];
        t.result = out[4];
        t.length = out[5];
    } else {
        t.refusal = answer.refusal;
        t.place = answer.place;
        t.result = answer.result;
        t.length = answer.length;
    }
    return t;
}

static void put_named(const char *name, uint64_t n) {
    put_text(name);
    put_number(n);
}

static void put_told(struct told t, int is_call) {
    if (t.refusal) {
        put_named("refused ", t.refusal);
        put_named(" at ", t.place);
    } else {
        if (!is_call) put_named("type ", t.result);
        if (t.length) put_named(is_call ? "length " : ", length ", t.length);
    }
    put_text("\n");
}

static int is_same(const struct operation *o, int is_call) {
    struct told v, r;
    do_call(o->reference);
    r = told_by(0, is_call);
    do_call(o->verified);
    v = told_by(1, is_call);
    return !memcmp(&v, &r, sizeof v) && !memcmp(&of_verified, &of_reference, sizeof of_verified);
}

/* ---- The program */

static int equals(const char *a, const char *b) {
    while (*a && *a == *b) a++, b++;
    return *a == *b;
}

static const struct operation *operation_named(const char *name) {
    size_t i;
    for (i = 0; i < OPERATIONS; i++)
        if (equals(name, operations[i].name)) return &operations[i];
    complain("no such operation: ", name);
    return 0;
}

/* the job's answer file, in memory of its own */
static void answer_first(void) {
    static uint8_t kept[EMBERSTITCH_ANSWER_MOST];
    do_call(reference_does_answer_job);
    if (answer.refusal) complain("the job has no answer file", "");
    memcpy(kept, of_reference.file, answer.length);
    given.at = kept;
    given.count = answer.length;
    memset(&of_reference, 0, sizeof of_reference);
}

int run_program(int count, char **word) {
    const struct operation *o;
    int is_verified, is_call;
    void (*call)(void);
    if (count < 5) complain("WHO OPERATION HOW JOB [VALUES]", "");
    o = operation_named(word[2]);
    is_verified = equals(word[1], "verified");
    is_call = equals(word[2], "call");
    call = is_verified ? o->verified : o->reference;
    read_file(&job, word[4]);
    given.at = job.at;
    given.count = job.count;
    if (count > 5) read_file(&values, word[5]);
    if (equals(word[2], "read_answer")) answer_first();
    if (equals(word[3], "none")) {
        do_call(nothing);
    } else if (equals(word[3], "once")) {
        do_call(call);
    } else if (equals(word[3], "tell")) {
        do_call(call);
        put_told(told_by(is_verified, is_call), is_call);
    } else if (equals(word[3], "stack")) {
        put_number(stack_of(call));
        put_text("\n");
    } else if (equals(word[3], "same")) {
        int same = is_same(o, is_call);
        put_text(same ? "same\n" : "DIFFERENT\n");
        return !same;
    } else {
        complain("no such way: ", word[3]);
    }
    return 0;
}
