/*
 * Plays the layout engine: a plain C program over emberstitch.h and nothing else of the project.
 *
 *   client JOB [LENGTH]    asks for the job's answer, first in a buffer of LENGTH bytes (EMBERSTITCH_ANSWER_MOST without it), and prints the frames and
 *                          flows that the answer's type opens on the page
 *
 * A buffer that is too short is told, and the job is answered again in one of the length that it needs. Any other refusal is told by its name and place.
 *
 * THE PAGE. The result, and the inside of each element, is a list of parts: a pair is its left and its right parts, a name its definition's, any other type
 * that may have a tree at all is one part. A part opens a `frame`, fixed, if it has at most one tree, or a `flow` if it may have many; the paper's quant
 * decides. Below stand the trees that it may have: `text`, or an element's label, and below that the element's parts. A name that is open already is not
 * entered again.
 */
#include <stdint.h>
#include <stdio.h>
#include <stdlib.h>
#include <string.h>

#include "emberstitch.h"

/* a page that takes more steps, or is deeper, is cut off there: types that are shared may unfold to any size */
enum { MOST_STEPS = 100000, MOST_DEPTH = 1000 };

static void fail(const char *why) {
    fprintf(stderr, "client: %s\n", why);
    exit(1);
}

/* ---- The answer file */

struct type {
    unsigned kind, a, b;
};

static struct type types[EMBERSTITCH_TYPES_MOST] = {{EMBERSTITCH_EMPTY, 0, 0}, {EMBERSTITCH_STRING, 0, 0}};
static unsigned definitions[EMBERSTITCH_DEFINITIONS_MOST];
static unsigned type_count = 2, definition_count, result;

static unsigned word(const uint8_t *at) { return at[0] + 256u * at[1]; }

/* the answer's promises are proved; here they are only relied on as far as memory goes */
static void read_file(const uint8_t *file, size_t length) {
    size_t at = 0;
    while (at + 6 <= length) {
        unsigned size = word(file + at), kind = word(file + at + 2);
        struct type t = {kind, word(file + at + 4), size == 8 ? word(file + at + 6) : 0};
        if (kind == EMBERSTITCH_RESULT) {
            result = t.a;
        } else if (kind == EMBERSTITCH_DEFINITION) {
            if (definition_count == EMBERSTITCH_DEFINITIONS_MOST) fail("too many definitions");
            definitions[definition_count++] = t.a;
        } else {
            if (type_count == EMBERSTITCH_TYPES_MOST) fail("too many types");
            types[type_count++] = t;
        }
        at += size;
    }
    if (at != length || result >= type_count) fail("no answer file");
}

/* ---- Classes: what a type may have, and whether there is a tree in it at all */

enum { NONE = 1, MANY = 2, TREE = 4, KNOWN = 8 };

static unsigned char classes[EMBERSTITCH_TYPES_MOST];

/* a type's class from those of its parts; 0 while one of them is not known */
static unsigned class_of(struct type t) {
    unsigned x, y, either;
    switch (t.kind) {
    case EMBERSTITCH_EMPTY:
        return KNOWN | NONE;
    case EMBERSTITCH_STRING:
    case EMBERSTITCH_ELEMENT:
        return KNOWN | TREE;
    case EMBERSTITCH_NAME:
        return classes[definitions[t.a]];
    }
    x = classes[t.a];
    y = t.kind == EMBERSTITCH_PAIR || t.kind == EMBERSTITCH_UNION ? classes[t.b] : x;
    if (!x || !y) return 0;
    either = x | y;
    switch (t.kind) {
    case EMBERSTITCH_PAIR:
        return (either & ~(unsigned)NONE) | (x & y & NONE) | MANY;
    case EMBERSTITCH_STAR:
        return either | NONE | MANY;
    case EMBERSTITCH_PLUS:
        return either | MANY;
    case EMBERSTITCH_OPT:
        return either | NONE;
    }
    return either;
}

/* each class once: a definition may stand for a later type, so there are passes, at most one for each definition and one more */
static void classify(void) {
    unsigned pass, e;
    for (pass = 0; pass <= definition_count; pass++)
        for (e = 0; e < type_count; e++)
            if (!classes[e]) classes[e] = (unsigned char)class_of(types[e]);
}

/* ---- The page */

static unsigned char is_open[EMBERSTITCH_DEFINITIONS_MOST];
static unsigned steps;

static void begin(unsigned indent) { printf("%*s", 2 * (int)indent, ""); }

/* whether there is something to show, and the page is not cut off here */
static int is_shown(unsigned e, unsigned indent, unsigned depth) {
    if (!(classes[e] & TREE) || ++steps > MOST_STEPS) return 0;
    if (depth < MOST_DEPTH) return 1;
    begin(indent);
    printf("deeper\n");
    return 0;
}

static void parts(unsigned e, unsigned indent, unsigned depth);

/* the trees of a part, in order */
static void trees(unsigned e, unsigned indent, unsigned depth) {
    struct type t = types[e];
    if (!is_shown(e, indent, depth)) return;
    switch (t.kind) {
    case EMBERSTITCH_STRING:
        begin(indent);
        printf("text\n");
        return;
    case EMBERSTITCH_ELEMENT:
        begin(indent);
        printf("%u\n", t.a);
        parts(t.b, indent + 1, depth + 1);
        return;
    case EMBERSTITCH_NAME:
        if (is_open[t.a]) {
            begin(indent);
            printf("definition %u again\n", t.a);
            return;
        }
        is_open[t.a] = 1;
        trees(definitions[t.a], indent, depth + 1);
        is_open[t.a] = 0;
        return;
    case EMBERSTITCH_PAIR:
    case EMBERSTITCH_UNION:
        trees(t.a, indent, depth + 1);
        trees(t.b, indent, depth + 1);
        return;
    default:
        trees(t.a, indent, depth + 1);
    }
}

static void parts(unsigned e, unsigned indent, unsigned depth) {
    struct type t = types[e];
    if (!is_shown(e, indent, depth)) return;
    if (t.kind == EMBERSTITCH_PAIR) {
        parts(t.a, indent, depth + 1);
        parts(t.b, indent, depth + 1);
    } else if (t.kind == EMBERSTITCH_NAME && !is_open[t.a]) {
        is_open[t.a] = 1;
        parts(definitions[t.a], indent, depth + 1);
        is_open[t.a] = 0;
    } else {
        begin(indent);
        printf(classes[e] & MANY ? "flow\n" : "frame\n");
        trees(e, indent + 1, depth + 1);
    }
}

/* ---- The call */

static const char *const names[] = {"accepted", "record cut", "unknown kind", "wrong length", "section out of order", "over a capacity", "wrong reference",
    "variable declared twice", "no query", "name without definition", "unguarded definition", "no type for a tree variable", "query node not used once",
    "variable not in scope", "variable bound again", "forest variable", "type table full", "answer buffer too short"};

static uint8_t *read_job(const char *path, size_t *length) {
    /* more bytes change nothing: an accepted job is shorter, and any other is refused at an earlier place */
    size_t room = 65536;
    uint8_t *job = malloc(room);
    FILE *file = fopen(path, "rb");
    if (!job || !file) fail("no such file");
    *length = fread(job, 1, room, file);
    fclose(file);
    return job;
}

/* answers in a buffer of old bytes, with one more behind it that must stay, and looks at what is promised of every byte */
static uint8_t *answer(const uint8_t *job, size_t job_length, size_t length, uint64_t *number) {
    size_t i;
    uint8_t *buffer = malloc(length + 1);
    if (!buffer) fail("no memory");
    memset(buffer, 0xaa, length + 1);
    *number = emberstitch_answer(job, job_length, buffer, length);
    i = emberstitch_refusal(*number) ? 0 : emberstitch_place(*number);
    if (i > length) fail("an answer longer than its buffer");
    for (; i < length; i++)
        if (buffer[i]) fail("a byte that is not zero");
    if (buffer[length] != 0xaa) fail("a byte written behind the buffer");
    return buffer;
}

int main(int count, char **words) {
    size_t job_length, length = count > 2 ? (size_t)strtoul(words[2], NULL, 10) : EMBERSTITCH_ANSWER_MOST;
    uint64_t number;
    uint8_t *job, *file;
    if (count < 2) fail("which job?");
    job = read_job(words[1], &job_length);
    file = answer(job, job_length, length, &number);
    if (emberstitch_refusal(number) == EMBERSTITCH_ANSWER_TOO_SHORT) {
        length = emberstitch_place(number);
        printf("answer buffer too short: %lu bytes needed\n", (unsigned long)length);
        free(file);
        file = answer(job, job_length, length, &number);
    }
    if (emberstitch_refusal(number)) {
        printf("refused: %s at %lu\n", names[emberstitch_refusal(number)], (unsigned long)emberstitch_place(number));
    } else {
        printf("%lu bytes\n", (unsigned long)emberstitch_place(number));
        read_file(file, emberstitch_place(number));
        classify();
        parts(result, 0, 0);
        if (steps > MOST_STEPS) printf("and more\n");
    }
    free(file);
    free(job);
    return 0;
}
