#include "texts.h"

#include "start.h"

/* whether a byte is one of these */
static int among(const char *s, int c) {
    while (*s && *s != c) s++;
    return *s != 0;
}

static size_t size_of(const char *s) {
    size_t n = 0;
    while (s[n]) n++;
    return n;
}

/* TOKENS. "Blanks (spaces, tabs, line ends) are free between signs, words and decimal numbers" */
enum { END = 256, STRANGE, NUMBER, FOR, IN, RETURN, LET, WHEN, TRUE, FALSE, EMPTY, NOT, OR, NODE, TEXT, SLASHES, GETS };

static const struct {
    const char *word;
    int kind;
} words[] = {{"for", FOR},     {"in", IN},       {"return", RETURN}, {"let", LET}, {"when", WHEN}, {"true", TRUE},
             {"false", FALSE}, {"empty", EMPTY}, {"not", NOT},       {"or", OR},   {"node", NODE}, {"text", TEXT}};

static const uint8_t *text;
static size_t size, at;

struct token {
    int kind;
    unsigned long value; /* of a number, at most 99,999 */
    size_t place, end;
};

static struct token peek(void) {
    struct token t = {END, 0, at, at};
    while (t.place < size && among(" \t\n\r", text[t.place])) t.place++;
    t.end = t.place;
    if (t.place == size) return t;
    uint8_t c = text[t.place];
    if (c >= 'a' && c <= 'z') {
        while (t.end < size && text[t.end] >= 'a' && text[t.end] <= 'z') t.end++;
        t.kind = STRANGE;
        for (size_t i = 0; i < sizeof words / sizeof *words; i++)
            if (size_of(words[i].word) == t.end - t.place && !memcmp(words[i].word, text + t.place, t.end - t.place)) t.kind = words[i].kind;
        return t;
    }
    if (c >= '0' && c <= '9') {
        t.kind = NUMBER;
        for (; t.end < size && text[t.end] >= '0' && text[t.end] <= '9'; t.end++)
            if ((t.value = t.value * 10 + (text[t.end] - '0')) > 99999) t.value = 99999;
        return t;
    }
    t.end++;
    int next = t.end < size ? text[t.end] : -1;
    if (c == '/' && next == '/') return t.kind = SLASHES, t.end++, t;
    if (c == ':' && next == '=') return t.kind = GETS, t.end++, t;
    t.kind = among("()[],#$/=", c) ? c : STRANGE;
    return t;
}

/* THE PARSER. A refusal stops it at once */
static struct text_answer refusal;
static uint16_t nodes[1024][4];
static unsigned long count; /* of nodes; those beyond 1,024 are not kept */
static long parts[1024];    /* the items of lists that are not closed, as their nodes */
static size_t waiting;

static int refuse(unsigned n, size_t place) {
    if (!refusal.refusal) refusal.refusal = n, refusal.place = place;
    return 0;
}

static long node(unsigned kind, unsigned long a, unsigned long b, unsigned long c) {
    if (count < 1024) nodes[count][0] = kind, nodes[count][1] = a, nodes[count][2] = b, nodes[count][3] = c;
    return count++;
}

static int expect(int kind) {
    struct token t = peek();
    if (t.kind != kind) return refuse(22, t.place);
    at = t.end;
    return 1;
}

/* "An unexpected token is told apart from a number out of range" */
static int number(unsigned long low, unsigned long high, unsigned long *n) {
    struct token t = peek();
    if (t.kind != NUMBER) return refuse(22, t.place);
    if (t.value < low || t.value > high) return refuse(6, t.place);
    *n = t.value, at = t.end;
    return 1;
}

static int variable(unsigned long *v) { return expect('$') && number(0, 63, v); }

/* "23 over 100 of [, ( (that of () too), for, let, when and not open at once" */
static int opens(int deep) {
    struct token t = peek();
    if (deep >= 100) return refuse(23, t.place);
    at = t.end;
    return 1;
}

static int condition(int deep, long *n) {
    struct token t = peek();
    unsigned long v, w;
    long p, q;
    switch (t.kind) {
    case TRUE: at = t.end; *n = node(48, 0, 0, 0); return 1;
    case FALSE: at = t.end; *n = node(49, 0, 0, 0); return 1;
    case '$':
        if (!variable(&v) || !expect('=') || !variable(&w)) return 0;
        *n = node(50, v, w, 0);
        return 1;
    case EMPTY:
        at = t.end;
        if (!variable(&v)) return 0;
        *n = node(51, v, 0, 0);
        return 1;
    case NOT:
        if (!opens(deep) || !condition(deep + 1, &p)) return 0;
        *n = node(53, p, 0, 0);
        return 1;
    case '(':
        if (!opens(deep) || !condition(deep + 1, &p) || !expect(OR) || !condition(deep + 1, &q) || !expect(')')) return 0;
        *n = node(52, p, q, 0);
        return 1;
    default: return refuse(22, t.place);
    }
}

static int list(int deep, long *n);

static int item(int deep, long *n) {
    struct token t = peek();
    unsigned long v, w;
    long p, q;
    switch (t.kind) {
    case '(':
        if (!opens(deep)) return 0;
        if (peek().kind == ')') {
            at = peek().end;
            *n = node(32, 0, 0, 0);
            return 1;
        }
        return list(deep + 1, n) && expect(')');
    case '#':
        at = t.end;
        if (!number(0, 65535, &v)) return 0;
        *n = node(33, v, 0, 0);
        return 1;
    case NUMBER:
        if (!number(1, 65534, &v)) return 0;
        if (peek().kind != '[') return refuse(22, peek().place);
        if (!opens(deep) || !list(deep + 1, &p) || !expect(']')) return 0;
        *n = node(34, v, p, 0);
        return 1;
    case '$': {
        if (!variable(&v)) return 0;
        struct token s = peek();
        if (s.kind != '/' && s.kind != SLASHES) return *n = node(36, v, 0, 0), 1;
        at = s.end;
        struct token x = peek();
        if (x.kind == NODE) w = 0, at = x.end;
        else if (x.kind == TEXT) w = 65535, at = x.end;
        else if (!number(1, 65534, &w)) return 0;
        *n = node(s.kind == '/' ? 37 : 38, v, w, 0);
        return 1;
    }
    case FOR:
    case LET:
        if (!opens(deep) || !variable(&v) || !expect(t.kind == FOR ? IN : GETS) || !item(deep + 1, &p) || !expect(RETURN) || !item(deep + 1, &q)) return 0;
        *n = node(t.kind == FOR ? 39 : 40, v, p, q);
        return 1;
    case WHEN:
        if (!opens(deep) || !condition(deep + 1, &p) || !expect(RETURN) || !item(deep + 1, &q)) return 0;
        *n = node(41, p, q, 0);
        return 1;
    default: return refuse(22, t.place);
    }
}

/* "items parted by commas", "Commas group to the right" */
static int list(int deep, long *n) {
    size_t first = waiting;
    unsigned long unkept = 0;
    if (!item(deep, n)) return 0;
    while (peek().kind == ',') {
        at = peek().end;
        if (waiting < 1024) parts[waiting++] = *n;
        else unkept++;
        if (!item(deep, n)) return 0;
    }
    count += unkept;
    while (waiting > first) *n = node(35, parts[--waiting], *n, 0);
    return 1;
}

static unsigned fields(unsigned kind) {
    switch (kind) {
    case 32: case 48: case 49: return 0;
    case 33: case 36: case 51: case 53: return 1;
    case 39: case 40: return 3;
    default: return 2;
    }
}

struct text_answer text_parse(const uint8_t *bytes, size_t n, uint8_t *out, size_t room) {
    long root;
    text = bytes, size = n, at = 0, count = 0, waiting = 0;
    memset(&refusal, 0, sizeof refusal);
    if (room) memset(out, 0, room);
    if (!list(0, &root) || !expect(END)) return refusal;
    if (count > 1024) return refuse(5, 0), refusal;
    size_t needed = 0;
    for (unsigned long i = 0; i < count; i++) needed += 4 + 2 * fields(nodes[i][0]);
    if (needed > room) return refuse(30, needed), refusal;
    for (unsigned long i = 0; i < count; i++) {
        unsigned f = fields(nodes[i][0]);
        uint16_t record[5] = {4 + 2 * f, nodes[i][0], nodes[i][1], nodes[i][2], nodes[i][3]};
        for (unsigned j = 0; j < 2 + f; j++) *out++ = record[j] & 255, *out++ = record[j] >> 8;
    }
    refusal.length = needed;
    return refusal;
}

/* THE WRITER: "one space between two of these if either is a word, := or =, and parentheses only where needed" */
static const uint16_t *query;
static uint8_t *line;
static size_t limit, written;
static int lastWide, any;
static long deepest;

static void bytes_of(const char *s) {
    for (; *s; s++, written++)
        if (written < limit) line[written] = *s;
}

static void put(const char *s, int wide) {
    if (any && (wide || lastWide)) bytes_of(" ");
    bytes_of(s);
    lastWide = wide, any = 1;
}

static void decimal(unsigned n) {
    char s[6] = {0};
    int i = 5;
    do s[--i] = '0' + n % 10;
    while (n /= 10);
    put(s + i, 0);
}

static void dollar(unsigned v) { put("$", 0), decimal(v); }

static void open_at(int deep, size_t n) {
    if (deep >= 100 && (deepest < 0 || (long)n < deepest)) deepest = n;
}

static void spell(size_t n, int many, int deep) {
    const uint16_t *x = query + 4 * n;
    switch (x[0]) {
    case 32: open_at(deep, n); put("(", 0), put(")", 0); break;
    case 33: put("#", 0), decimal(x[1]); break;
    case 34: open_at(deep, n); decimal(x[1]), put("[", 0), spell(x[2], 1, deep + 1), put("]", 0); break;
    case 35:
        if (!many) open_at(deep, n), put("(", 0), deep++;
        spell(x[1], 0, deep), put(",", 0), spell(x[2], 1, deep);
        if (!many) put(")", 0);
        break;
    case 36: dollar(x[1]); break;
    case 37: case 38:
        dollar(x[1]), put(x[0] == 37 ? "/" : "//", 0);
        if (x[2] == 0) put("node", 1);
        else if (x[2] == 65535) put("text", 1);
        else decimal(x[2]);
        break;
    case 39: case 40:
        open_at(deep, n);
        put(x[0] == 39 ? "for" : "let", 1), dollar(x[1]), put(x[0] == 39 ? "in" : ":=", 1);
        spell(x[2], 0, deep + 1), put("return", 1), spell(x[3], 0, deep + 1);
        break;
    case 41: open_at(deep, n); put("when", 1), spell(x[1], 0, deep + 1), put("return", 1), spell(x[2], 0, deep + 1); break;
    case 48: put("true", 1); break;
    case 49: put("false", 1); break;
    case 50: dollar(x[1]), put("=", 1), dollar(x[2]); break;
    case 51: put("empty", 1), dollar(x[1]); break;
    case 52: open_at(deep, n); put("(", 0), spell(x[1], 0, deep + 1), put("or", 1), spell(x[2], 0, deep + 1), put(")", 0); break;
    case 53: open_at(deep, n); put("not", 1), spell(x[1], 0, deep + 1); break;
    }
}

struct text_answer text_write(const uint16_t *code, size_t n, uint8_t *out, size_t room) {
    struct text_answer a = {0, 0, 0};
    query = code, line = out, limit = room, written = 0, any = 0, lastWide = 0, deepest = -1;
    if (room) memset(out, 0, room);
    spell(n - 1, 1, 0);
    if (deepest >= 0) a.refusal = 23, a.place = deepest;
    else if (written > room) a.refusal = 30, a.place = written;
    else a.length = written;
    if (a.refusal && room) memset(out, 0, room);
    return a;
}
