#!/usr/bin/env python3
"""Brings the repository's own definitions and lemmas to snake case: readJob to read_job, all-held to all_held.

usage: python3 tools/snake_names.py [FOLDER]     once, right after the port's script, at the top of FOLDER (default: here)
       python3 tools/snake_names.py --edits [FOLDER] NAMES     the edits and pages, by the map that an earlier run wrote to NAMES

A name is ours if a file of specs/ or proofs/ (the folders of single functions aside) has a signature for it, and no file imports it from a library.
Types, records and modules keep their capitals, and so do the paper's own names at the front of a lemma (J, P10). Rattle's code, strings and exported
names are left as they are. It stops where two names would fall together. The map goes to tools/snake_names.txt: old name, new name, a line each; where that file is there, it is the map.
tools/snake_names_port.txt has the names of ours that the port's script itself turned, for the edits and pages, which it leaves alone.
"""

import os
import re
import sys

EDGE = r"\s(){}\[\].,;:`λ|\"@⌜⌝"
SIGNATURE = re.compile(r"(?m)^\s*(?:abbrev |pub |unfoldable )*((?:[^" + EDGE + r"]+ )*[^" + EDGE + r"]+)\s+:\s")
LIBRARY = re.compile(r"(?ms)^(?:ghost )?use (?:Prim|mathlib|native|lib|borrow|libraries|Rattle\.(?:std|core))\b[\w.·-]*\.\{([^}]*)\}")
TOKEN = re.compile(r"[^" + EDGE + r"]+")
LEMMAS = ("node_at", "record_of")  # lemmas that the port's script brought to the spelling of a definition
KEYWORDS = {"where", "data", "record", "module", "use", "let", "in", "elim", "as", "unfolding"}


def files(root, folder, endings):
    for d, ds, fs in os.walk(os.path.join(root, folder)):
        ds[:] = sorted(x for x in ds if x not in ("out", ".git", "target"))
        for f in sorted(fs):
            if f.endswith(endings):
                yield os.path.join(d, f)


def read(p):
    with open(p, encoding="utf-8") as f:
        return f.read()


def of_function(p, root):
    parts = os.path.relpath(p, root).split(os.sep)
    return len(parts) > 4 and parts[2] == "proofs" and (parts[3].startswith("+") or parts[3][0].islower())


def snake(name):
    n = name.replace("getD", "get_or").replace("-", "_")
    head = re.match(r"(?:J|P\d+)(?=_)", n)
    lead = head.group(0) if head else ""
    rest = n[len(lead):]
    if re.match(r"[A-Z]\w*_", rest) or re.search(r"_[A-Z]", rest):
        words = rest.split("_")
        words = [w if re.match(r"[A-Z]", w) else re.sub(r"(?<=[a-z0-9])([A-Z]+)", lambda m: "_" + m.group(1).lower(), w) for w in words]
        return lead + "_".join(words)
    return lead + re.sub(r"(?<=[a-z0-9])([A-Z]+)", lambda m: "_" + m.group(1).lower(), rest)


def wanted(name):
    if "-" in name:
        return True
    return bool(re.match(r"[a-zℕ]", name) and re.search(r"[a-z0-9][A-Z]", name))


def renames(root):
    own, local, foreign, tokens, code = set(), set(), set(), set(), set()
    for p in files(root, "crates", (".antt", ".rt")):
        text = read(p)
        for m in LIBRARY.finditer(text):
            foreign |= {w.split(" as ")[-1].strip() for w in m.group(1).split(",")}
            foreign |= {w.split(" as ")[0].strip() for w in m.group(1).split(",")}
        tokens |= set(TOKEN.findall(text))
        if p.endswith(".rt"):
            code |= set(re.findall(r"\w+", text))
            continue
        bare = re.sub(r"(?m)--.*$", "", text)
        for m in SIGNATURE.finditer(bare):
            (local if of_function(p, root) else own).update(w for w in m.group(1).split(" ") if w not in KEYWORDS)
    names = {n: snake(n) for n in own if wanted(n) and n not in foreign and not n.startswith(("◌", "_"))}
    names = {a: b for a, b in names.items() if a != b}
    # a lemma that would have the name of a definition gets _lem
    defined = {b for a, b in names.items() if "-" not in a} | {n for n in own | local | foreign if n not in names}
    for a in names:
        if "-" in a and (names[a] in defined or names[a] in code):
            names[a] += "_lem"
    names |= {n: n + "_lem" for n in LEMMAS if n in own}
    found = {}
    for a, b in sorted(names.items()):
        found.setdefault(b, []).append(a)
    bad = [f"{b}: {' '.join(a)}" for b, a in sorted(found.items()) if len(a) > 1]
    # in Rattle's code a definition may have the name of the function that it says all of
    taken = [f"{a} -> {b}" for a, b in sorted(names.items()) if b in (own | local | foreign) - set(names) or b in tokens - set(names) and b not in code]
    return names, bad, taken


def turned(text, names):
    return TOKEN.sub(lambda m: names.get(m.group(0), m.group(0)), text)


def turned_code(text, names):
    parts = re.split(r'("(?:[^"\\\n]|\\.)*")', text)
    return "".join(p if i % 2 else turned(p, names) for i, p in enumerate(parts))


def turned_page(text, names):
    return re.sub(r"`[^`\n]+`", lambda m: turned(m.group(0), names), text)


def write(p, old, new):
    if old != new:
        with open(p, "w", encoding="utf-8") as f:
            f.write(new)


def edits(root, names):
    for p in list(files(root, "crates", (".edit",))) + list(files(root, "tests", (".edit",))):
        text = read(p)
        lines = text.splitlines(keepends=True)
        write(p, text, "".join(turned(l, names) if l.startswith(("old:", "new:")) else l for l in lines))
    for p in [os.path.join(root, "README.md")] + list(files(root, "docs", (".md",))):
        text = read(p)
        write(p, text, turned_page(text, names))


def main(argv):
    if argv[:1] == ["--edits"]:
        root = argv[1] if len(argv) > 2 else "."
        names = dict(l.split() for l in read(argv[-1]).splitlines() if l.strip() and not l.startswith("#"))
        edits(root, names)
        return 0
    root = argv[0] if argv else "."
    kept = os.path.join(os.path.dirname(os.path.realpath(__file__)), "snake_names.txt")
    if os.path.exists(kept):
        names, bad, taken = dict(l.split() for l in read(kept).splitlines()), [], []
    else:
        names, bad, taken = renames(root)
    if bad or taken:
        print("two names fall together:\n" + "\n".join(bad) + "\nthe new name is there already:\n" + "\n".join(taken))
        return 1
    for p in files(root, "crates", (".antt",)):
        text = read(p)
        write(p, text, turned(text, names))
    for p in files(root, "crates", (".rt",)):
        text = read(p)
        write(p, text, turned_code(text, names))
    with open(os.path.join(root, "tools", "snake_names.txt"), "w", encoding="utf-8") as f:
        f.writelines(f"{a} {b}\n" for a, b in sorted(names.items()))
    print(f"{len(names)} names")
    return 0


if __name__ == "__main__":
    raise SystemExit(main(sys.argv[1:]))
