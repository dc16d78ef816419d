/*
 * The parser and the writer of the text form against texts.c: the answer and every byte of the buffer, and of the tables that the writer is lent, on texts from
 * a seed: queries of every form with blanks of every kind, the same with bytes changed, cut, put in or doubled, texts of tokens in any order, deep nests around
 * 100, long lists around 1,024 nodes, and buffers of every length around what is needed. What is parsed is written again, and that is parsed again: the same
 * number of nodes, and written the same.
 * The last lines tell how often each answer came. It ends with 0 only where nothing differed and each refusal came often enough.
 */
#include "start.h"
#include "texts.h"

void probe_parse_text(const uint8_t *, size_t, uint8_t *, size_t, uint64_t *, size_t);
void probe_write_text(const uint8_t *, size_t, uint16_t *, size_t, uint16_t *, size_t, uint8_t *, size_t, uint64_t *, size_t);

enum { LONGEST = 1 << 17, ROOM = 1 << 14, OUT = 128 };

static uint8_t text[LONGEST], again[LONGEST], first[LONGEST], second[LONGEST];
static size_t size;
static uint16_t types[64], query[4096];
static uint64_t out[OUT];
static unsigned long wrong, compared, parsed_with[64], written_with[64];

/* WORDS on standard output */
static void say(const char *s) {
    size_t n = 0;
    while (s[n]) n++;
    put_bytes(s, n);
}

static void say_number(unsigned long n) {
    char digits[24];
    int i = 24;
    do digits[--i] = (char)('0' + n % 10);
    while (n /= 10);
    put_bytes(digits + i, (size_t)(24 - i));
}

/* DRAWS */
static uint64_t state;

static unsigned draw(unsigned below) {
    state ^= state << 13, state ^= state >> 7, state ^= state << 17;
    return (unsigned)((state >> 20) % below);
}

/* TEXTS */
static void put_byte(int c) {
    if (size < LONGEST) text[size++] = (uint8_t)c;
}

static void put_word(const char *s) {
    while (*s) put_byte(*s++);
}

static void blanks(void) {
    for (unsigned n = draw(6); n > 3; n--) put_byte(" \t\n\r"[draw(4)]);
}

/* a blank where two words or numbers would be one */
static void piece(const char *s) {
    if (size && draw(3)) put_byte(' ');
    else {
        uint8_t last = size ? text[size - 1] : ' ';
        int word = last >= 'a' && last <= 'z', number = last >= '0' && last <= '9';
        if ((word && *s >= 'a' && *s <= 'z') || (number && *s >= '0' && *s <= '9') || (last == '/' && *s == '/')) put_byte(' ');
    }
    blanks();
    put_word(s);
}

static void number(unsigned long n) {
    char digits[12];
    int i = 11;
    digits[11] = 0;
    do digits[--i] = (char)('0' + n % 10);
    while (n /= 10);
    while (i && !draw(8)) digits[--i] = '0';
    piece(digits + i);
}

static unsigned long label(void) { return draw(30) ? draw(4) ? 1 + draw(20) : 1 + draw(65534) : draw(2) ? 0 : 65535; }

static void variable(void) {
    piece("$");
    number(draw(40) ? draw(64) : 64 + draw(3));
}

static void condition(int left) {
    switch (left > 0 ? draw(7) : draw(4)) {
    case 0: piece("true"); break;
    case 1: piece("false"); break;
    case 2: variable(), piece("="), variable(); break;
    case 3: piece("empty"), variable(); break;
    case 4: piece("not"), condition(left - 1); break;
    default: piece("("), condition(left / 2), piece("or"), condition(left / 2), piece(")"); break;
    }
}

static void item(int left);

static void list(int left) {
    item(left / 2);
    while (left > 0 && draw(3)) piece(","), item(left / 2), left--;
}

static void item(int left) {
    switch (left > 0 ? draw(10) : draw(5)) {
    case 0: piece("("), piece(")"); break;
    case 1: piece("#"), number(draw(30) ? draw(65536) : 65536 + draw(2)); break;
    case 2: variable(); break;
    case 3:
    case 4:
        variable(), piece(draw(2) ? "/" : "//");
        if (draw(3)) number(label());
        else piece(draw(2) ? "node" : "text");
        break;
    case 5: number(label()), piece("["), list(left - 1), piece("]"); break;
    case 6: piece("("), list(left - 1), piece(")"); break;
    case 7: piece("for"), variable(), piece("in"), item(left / 2), piece("return"), item(left / 2); break;
    case 8: piece("let"), variable(), piece(":="), item(left / 2), piece("return"), item(left / 2); break;
    default: piece("when"), condition(left / 2), piece("return"), item(left / 2); break;
    }
}

/* one within another, about 100 times; and about 1,024 nodes in a row */
static void nest(unsigned depth) {
    unsigned form = draw(5), i;
    for (i = 0; i < depth; i++) switch (form == 4 ? draw(4) : form) {
        case 0: piece("("); break;
        case 1: piece("for"), variable(), piece("in"), piece("#"), number(1), piece("return"), form = 1; break;
        case 2: piece("when"), piece("not"), piece("true"), piece("return"), form = 2; break;
        default: number(1 + draw(9)), piece("["), form = 3; break;
        }
    if (draw(2)) piece("$"), number(1);
    else piece("("), piece(")");
    for (i = 0; i < depth; i++)
        if (form == 0) piece(")");
        else if (form == 3) piece("]");
}

static void row(unsigned items) {
    for (unsigned i = 0; i < items; i++) {
        if (i) put_byte(',');
        put_word(draw(9) ? "#1" : "()");
    }
}

static const char *const tokens[] = {"for", "in", "return", "let", "when", "true", "false", "empty", "not", "or", "node", "text", "(", ")", "[",
                                     "]",   ",",  "#",      "$",   "/",    "//",   ":=",    "=",     "1",   "0",  "63",   "64",   "65535", "65536", "word", ":", "A", "\x7f", "\xff"};

static void any_tokens(void) {
    for (unsigned n = draw(12); n; n--) piece(tokens[draw(sizeof tokens / sizeof *tokens)]);
}

static void damage(void) {
    for (unsigned n = 1 + draw(2); n && size; n--) {
        size_t at = draw((unsigned)size), i;
        switch (draw(4)) {
        case 0: text[at] = (uint8_t)(draw(2) ? draw(256) : (unsigned)"()[],#$/=: a1"[draw(13)]); break;
        case 1: size = at; break;
        case 2:
            for (i = at; i + 1 < size; i++) text[i] = text[i + 1];
            size--;
            break;
        default:
            if (size < LONGEST) {
                for (i = size++; i > at; i--) text[i] = text[i - 1];
            }
        }
    }
}

static void make(unsigned long n) {
    size = 0;
    blanks();
    if (n % 50 == 49) row(500 + draw(40));
    else if (n % 50 == 48) nest(95 + draw(10));
    else if (n % 5 == 4) any_tokens();
    else list((int)draw(8));
    blanks();
    if (n % 3 == 2) damage();
}

/* ONE TEXT */
static void differs(const char *what, unsigned long n) {
    if (wrong++ < 10) say("DIFFERENCE: "), say(what), say(" of text "), say_number(n), say("\n");
}

static int same(struct text_answer a, const uint8_t *x, const uint8_t *y, size_t room) {
    return a.refusal == out[0] && a.place == out[1] && (a.refusal || a.length == out[5]) && !memcmp(x, y, room);
}

static struct text_answer parse(unsigned long n, size_t room) {
    memset(first, 165, room), memset(second, 90, room);
    struct text_answer a = text_parse(text, size, first, room);
    probe_parse_text(text, size, second, room, out, OUT);
    if (!same(a, first, second, room)) differs("the parse", n);
    compared++, parsed_with[a.refusal]++;
    return a;
}

/* the query table of a section */
static size_t table(const uint8_t *s, size_t bytes, uint16_t *code) {
    size_t n = 0;
    for (size_t at = 0; at < bytes; at += s[at], n++)
        for (unsigned i = 0; i < 4; i++) code[4 * n + i] = at + 2 + 2 * i < at + s[at] ? (uint16_t)(s[at + 2 + 2 * i] + 256 * s[at + 3 + 2 * i]) : 0;
    return n;
}

static void write_back(unsigned long n, size_t length) {
    static uint16_t code[4096], zero[4096];
    static uint8_t job[ROOM], third[LONGEST];
    memcpy(job, first, length);
    size_t nodes = table(job, length, code);
    size_t room = draw(3) ? ROOM * 4 : draw(200);
    memset(again, 165, room), memset(second, 90, room), memset(types, 165, sizeof types), memset(query, 90, sizeof query);
    struct text_answer a = text_write(code, nodes, again, room);
    probe_write_text(job, length, types, 64, query, 4096, second, room, out, OUT);
    if (!same(a, again, second, room)) differs("the text", n);
    if (memcmp(types + 6, zero, sizeof types - 12)) differs("the type table", n);
    memset(code + 4 * nodes, 0, sizeof code - 8 * nodes);
    if (memcmp(query, a.refusal ? zero : code, sizeof query)) differs("the query table", n);
    compared++, written_with[a.refusal]++;
    if (a.refusal) return;
    memcpy(text, again, size = a.length);
    struct text_answer b = parse(n, ROOM);
    if (b.refusal || b.length != length) {
        differs("the way back", n);
        return;
    }
    memcpy(job, first, length);
    nodes = table(job, length, code);
    struct text_answer c = text_write(code, nodes, third, LONGEST);
    if (c.length != a.length || memcmp(third, again, c.length)) differs("the text of the way back", n);
}

int run_program(int count, char **word) {
    uint64_t seed = 0;
    for (char *c = count > 1 ? word[1] : "1"; *c; c++) seed = seed * 10 + (uint64_t)(*c - '0');
    unsigned long least[64] = {0};
    least[0] = 20000, least[22] = 5000, least[6] = 1000, least[23] = 100, least[5] = 100, least[30] = 1000;
    for (unsigned long n = 0; n < 60000; n++) {
        state = (seed + 1) * 0x9e3779b97f4a7c15u ^ (n + 1) * 0xd1342543de82ef95u;
        make(n);
        struct text_answer a = parse(n, ROOM);
        if (a.refusal) continue;
        size_t needed = a.length, near = needed < 3 ? 0 : needed - 3;
        parse(n, near + draw(6));
        parse(n, draw((unsigned)needed + 1));
        parse(n, ROOM);
        write_back(n, needed);
    }
    say("compared "), say_number(compared), say(" answers, differences "), say_number(wrong), say("\n");
    for (unsigned i = 0; i < 64; i++)
        if (parsed_with[i] + written_with[i] + least[i]) {
            say("  "), say_number(i), say(": parsed "), say_number(parsed_with[i]), say(", written "), say_number(written_with[i]);
            if (parsed_with[i] < least[i]) say(" TOO FEW"), wrong++;
            say("\n");
        }
    if (written_with[23] < 1 && written_with[30] < 100) say("  the writer: TOO FEW\n"), wrong++;
    return wrong != 0;
}
