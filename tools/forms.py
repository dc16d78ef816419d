#!/usr/bin/env python3
"""Counts the places in crates/*/src that could have a newer form of Rattle, point by point, as docs/DESIGN-PASS.md lists them.

    python3 tools/forms.py [-v] [FOLDER]     FOLDER has crates/; -v names each place

It goes by text, so it finds candidates: which of them stay and why is said beside them (`// kept:`) and in docs/DESIGN-PASS.md."""
import collections, glob, os, re, sys

args = [it for it in sys.argv[1:] if it != "-v"]
shown = "-v" in sys.argv
top = args[0] if args else os.path.join(os.path.dirname(os.path.abspath(__file__)), "..")

sources = {}
for path in sorted(glob.glob(f"{top}/crates/*/src/**/*.rt", recursive=True)):
    with open(path, encoding="utf-8") as it:
        sources[os.path.relpath(path, f"{top}/crates")] = it.read()


def uncommented(text):
    return re.sub(r"//[^\n]*", lambda m: " " * len(m.group()), text)


def line_of(text, at):
    return text.count("\n", 0, at) + 1


def block(text, at):
    """The text from the brace that opens behind `at` to the one that closes it."""
    begin = text.index("{", at)
    depth = 0
    for i in range(begin, len(text)):
        depth += {"{": 1, "}": -1}.get(text[i], 0)
        if depth == 0:
            return text[begin : i + 1]
    return text[begin:]


found = collections.OrderedDict()


def note(point, place):
    found.setdefault(point, []).append(place)


def each(point, pattern, skip=None):
    found.setdefault(point, [])
    for name, text in sources.items():
        plain = uncommented(text)
        for m in re.finditer(pattern, plain, re.M):
            if not skip or not re.search(skip, m.group()):
                note(point, f"{name}:{line_of(plain, m.start())}: {' '.join(m.group().split())[:90]}")


# 1
found["1 enums like Option or Result"] = []
LIKE = r"\b(Refused|Nowhere|Unknown|Missing|Stop|Wrong|Full|Short|Strange|Undefined)\b"
for name, text in sources.items():
    plain = uncommented(text)
    for m in re.finditer(r"^(?:pub )?enum (\w+)", plain, re.M):
        body = block(plain, m.end())
        if re.search(LIKE, body) or re.match(r"\{\s*(None|Nothing)\b[^}]*\w+\(", body) and body.count(",") <= 4:
            note("1 enums like Option or Result", f"{name}:{line_of(plain, m.start())}: enum {m.group(1)}")
each("1 refusals by number", r"\bnumber: (?:\d+|u16|n|m|k)\b|\brefusal\(\d+|\brefuse\([^;]*\b\d\d, place\)|\bfirst(?:_of)?\(\d+,", r"fn ")
each("1 a flag with a value beside it", r"\bended: bool")
each("1 kinds by number", r"\b(?:x\.)?kind (?:==|!=|<|<=|>|>=) \d+|\b\d+ <=? kind\b|match (?:x\.|w\.)?(?:kind|section|word)\b")


# 2
def functions():
    for name, text in sources.items():
        plain = uncommented(text)
        for m in re.finditer(r"^( *)(?:pub )?(?:extern \"C\" )?fn (\w+)", plain, re.M):
            head_end = m.end()
            at, depth = head_end, 0
            # the body's brace stands alone on its line
            body = re.compile(r"^%s\{$" % m.group(1), re.M).search(plain, head_end)
            inline = re.compile(r"\{\n").search(plain, head_end)
            start = body.start() if body else inline.start() if inline else None
            if start is None:
                continue
            following = re.compile(r"^ *(?:pub )?(?:extern \"C\" )?fn \w+", re.M).search(plain, head_end)
            if following and following.start() < start:
                start = plain.index("{\n", head_end)
            yield name, m.group(2), line_of(plain, m.start()), plain[head_end:start], block(plain, start)


def shape(body):
    tokens = re.findall(r"[A-Za-z_]\w*|\d+|\S", body)
    keep = {"if", "else", "match", "while", "loop", "for", "in", "return", "let", "mut", "as", "true", "false"}
    out, names = [], {}
    for it in tokens:
        if it.isdigit():
            out.append("0")
        elif re.match(r"[A-Za-z_]", it) and it not in keep:
            out.append(names.setdefault(it, f"v{len(names)}"))
        else:
            out.append(it)
    return tuple(out)


found["2 functions of one shape"] = []
shapes = collections.defaultdict(list)
for name, fn, line, head, body in functions():
    key = shape(body)
    if len(key) >= 24 and "probe" not in name and "worked" not in name:
        shapes[key].append(f"{name.split('/')[0]}::{fn}")
for names in shapes.values():
    if len(names) > 1:
        note("2 functions of one shape", ", ".join(names))

# 3
each("3 loops that count by hand", r"^ *while [^{]*\{|^ *loop \{")

# 4
each("4 conversions by hand", r"\bwords::wide\(|\bfn wide\(")
each("4 equality, order, least, copying by hand", r"\bfn (?:same|at_most|capped|least|among|is_blank|earlier|place_if|first|first_of|lower|copy|clear|clear_bytes|shift)\b")
each("4 types with no derive but Drop or Clone, Copy", r"#\[derive\((?:Drop|Clone, Copy)\)\]")
each("4 printing by hand", r"\bfn (?:put_digits|number|digits|result_line|stretch_line|refused_line|entry_line|put_span)\b")

# 5
clauses = collections.defaultdict(set)
pairs = collections.defaultdict(set)
for name, fn, line, head, body in functions():
    crate = name.split("/")[0]
    for m in re.finditer(r"requires(?: \w+)? \{ ([^\n]*) \}", head):
        clauses[(crate, m.group(1))].add(fn)
    params = re.findall(r"(\w+): (?:&(?:mut )?)?(?:'a )?[\[\w]", head.split("->")[0])
    for a, b in zip(params, params[1:]):
        pairs[(crate, a, b)].add(fn)
found["5 facts in three or more contracts"] = [f"{c}: {k} ({len(v)})" for (c, k), v in sorted(clauses.items()) if len(v) >= 3]
found["5 parameters side by side in five or more functions"] = [f"{c}: {a}, {b} ({len(v)})" for (c, a, b), v in sorted(pairs.items()) if len(v) >= 5]

# 6
each("6 a slice with its length beside it", r"\b(\w+): &(?:mut )?\[u16\],\s*(?:count|used|declared|nodes|n|tasks|top): usize")
each("6 parallel arrays", r"\bfroms?: &(?:mut )?\[u16; 64\]|pub from: \[u16; 64\]")
each("6 structs packed into words of a stack", r"\bstack: &mut \[u16\]")

# 7
each("7 switches on a step", r"match (?:mode|class|file|bind|ask)\b")

# 8
proofs = glob.glob(f"{top}/crates/*/proofs/**/*.antt", recursive=True)
answers = [it for it in proofs if os.path.basename(it) in ("Answers.antt", "Invariants.antt")]
lemmas = [it for it in proofs if it not in answers]
count = lambda files: sum(open(it, encoding="utf-8").read().count("\n") for it in files)
for point, places in found.items():
    print(f"{len(places):5}  {point}")
    if shown:
        for it in places:
            print(f"         {it}")
print(f"{len(answers):5}  8 files of answers and invariants, {count(answers)} lines")
print(f"{len(lemmas):5}  8 files of lemmas, {count(lemmas)} lines")
print(f"{sum(len(re.findall('// kept:', it)) for it in sources.values()):5}  places with a line '// kept:'")
print(f"{sum(it.count(chr(10)) for it in sources.values()):5}  lines in src/")
