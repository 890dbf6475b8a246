#!/usr/bin/env python3
"""Brings the repository's own definitions and lemmas to one spelling.

usage: python3 tools/spelling.py          rewrites crates/*/{src,specs,proofs}, once, after the library's own script
       python3 tools/spelling.py --list   prints each old name beside its new one, and names that fall together

Functions, definitions and lemmas are in snake case. A dash joins the names of two definitions, as in `length-account_bytes`; a plain
word is added with `_`, as in `applies_first`. Types, modules and what Rattle makes keep their spelling, and so do the functions of
src/, exported names, strings, comments' prose, inputs and outputs.
"""

import os
import re
import sys

TOKEN = re.compile(r"[A-Za-z\u0370-\u03ff\u2115\u2124][A-Za-z0-9_'\u2080-\u2089\u2191-]*")
HEAD = re.compile(
    r"(?m)^((?:(?:abbrev|unfoldable|pub|record|data|ruleset)\s+)*)([A-Za-z][^\s(){}\[\],;:.\u03bb\u2192\u00d7]*)"
    r"((?:\s*(?:\([^()]*(?:\([^()]*\)[^()]*)*\)|\{[^{}]*\}))*)\s*:\s"
)
FIELD = re.compile(r"(?m)^  (?:pub\s+)?([a-z][^\s(){}\[\],;:.]*)\s*:\s")
# Names that would fall together with another one, and get a name of their own.
APART = {"fields-of": "fields_of_lem", "moved_all": "moved_all_lem", "taken_at": "taken_at_lem", "with_part": "with_part_lem", "arrayOf": "array_value"}
APART |= {"with-asks": "with_asks_lem", "ask-stands": "ask_stands_lem", "would-register": "would_register_lem"}
APART |= {n: n.replace("-", "_") + "_lem" for n in ["accounts-in", "asks-valid", "book-exact", "book-ok", "counts-in", "estimates-in", "exposure-with-trade", "nets-match", "part-cleared", "part-copied", "part-exact", "sale-worth", "saved-exact", "setup-in"]}
# Words of the library that lemmas are named after.
LIBRARY = {"length", "take", "drop", "map", "set", "insert", "append", "min", "eqb", "leb", "ltb", "replicate", "get"}


def files(root):
    for d, dirs, fs in os.walk(os.path.join(root, "crates")):
        dirs[:] = sorted(x for x in dirs if x not in ("out", ".git"))
        for f in sorted(fs):
            if f.endswith((".antt", ".rt", ".edit")):
                yield os.path.join(d, f)


def uncommented(text, path):
    """The text with comments and strings blanked, of the same length."""
    blank = lambda m: " " * len(m.group(0))
    if path.endswith(".antt"):
        return re.sub(r"(?m)--(?=[\s-]|$).*$", blank, text)
    return re.sub(r'(?m)"(?:[^"\\]|\\.)*"|//.*$', blank, text)


def snake(name):
    name = re.sub(r"(?<=[a-z0-9])([A-Z])", lambda m: "_" + m.group(1), name)
    return "-".join(p if p[:1].isupper() else p.lower() for p in name.split("-")) if "-" in name else name.lower()


def read(root):
    return {p: open(p, encoding="utf-8").read() for p in files(root)}


def imported(texts):
    """Names that some file takes from outside the repository."""
    out = set()
    own = set(os.listdir("crates"))
    for p, t in texts.items():
        for m in re.finditer(r"use\s+([A-Za-z][\w.'\u00b7-]*)\.\{([^}]*)\}", t):
            parts = m.group(1).split(".")
            if parts[0] == "Rattle" and len(parts) > 1 and parts[1] in own:
                continue
            if parts[0] in own or parts[0] in ("crate",):
                continue
            for n in m.group(2).split(","):
                out.update(w for w in n.replace(" as ", " ").split())
    return out


def names(texts):
    """The new name of each definition and lemma, and of each field."""
    foreign = imported(texts)
    defined, inner, fields, functions, walks = set(), set(), set(), set(LIBRARY), set()
    for p, t in texts.items():
        if not p.endswith(".antt"):
            continue
        u = uncommented(t, p)
        for m in HEAD.finditer(u):
            n = m.group(2)
            (walks if os.path.basename(p) == "Proof.antt" else defined).add(n)
            if "/specs/" in p and "/Examples/" not in p and "-" not in n and n[0].islower():
                functions.add(snake(n))
        if os.path.basename(p) != "Proof.antt":
            fields.update(m.group(1) for m in FIELD.finditer(u))
    # several names in one signature, constructors in one line and names given by `let` or `as`
    for p, t in texts.items():
        if not p.endswith(".edit"):
            defined.update(n for n in TOKEN.findall(uncommented(t, p)) if re.match(r"[a-z]", n) and re.search("[A-Z]", n) and "-" not in n and not re.match(r"x[0-9A-F]+$", n))
    # what a walk defines for itself is named after a goal, whose name is made by Rattle
    defined |= {n for n in walks if "-" not in n}
    whole = {n: APART.get(n) or (dashed(n, functions) if "-" in n else snake(n)) for n in defined - foreign if n[:1].islower()}
    held = {}
    for n in sorted(whole, key=lambda n: ("-" in n, n)):
        if whole[n] in held and "-" in n:
            whole[n] += "_lem"
        held.setdefault(whole[n], n)
    part = {n: APART.get(n) or (n if "-" not in n and not re.search("[A-Z]", n) else snake(n).replace("-", "_")) for n in fields - foreign if n[:1].islower()}
    return {o: n for o, n in whole.items() if o != n}, {o: n for o, n in part.items() if o != n}


def dashed(name, functions):
    """The name with a dash only between the names of two definitions."""
    words = [w if w[:1].isupper() else snake(w) for w in name.split("-")]
    out, left, i = words[0], words[0], 1
    while i < len(words):
        # the longest name of a definition that begins here
        right = None
        for j in range(len(words), i, -1):
            if "_".join(words[i:j]) in functions:
                right = "_".join(words[i:j])
                break
        if right and left in functions:
            out, left, i = out + "-" + right, right, j
        else:
            out, left, i = out + "_" + words[i], left + "_" + words[i], i + 1
    return out


INNER = re.compile(
    r"(?m)^\s*(?:(?:abbrev|unfoldable|pub)\s+)*([a-z][^\s(){}\[\],;:.]*)"
    r"(?:\s*(?:\([^()]*(?:\([^()]*\)[^()]*)*\)|\{[^{}]*\}))*\s*:\s"
)


def inner_names(texts):
    """What the first turn left: names declared further in, whose dashes join no two definitions."""
    defined, functions = set(), set(LIBRARY)
    for p, t in texts.items():
        if not p.endswith(".antt") or os.path.basename(p) in ("Proof.antt", "Answers.antt", "Invariants.antt"):
            continue
        u = uncommented(t, p)
        defined.update(n for n in INNER.findall(u) if "-" in n)
        if "/specs/" in p and "/Examples/" not in p:
            functions.update(m.group(2) for m in HEAD.finditer(u) if "-" not in m.group(2))
    new = {n: dashed(n, functions) for n in defined - imported(texts)}
    taken = {m for p, t in texts.items() if p.endswith(".antt") for m in TOKEN.findall(uncommented(t, p))}
    plain = {"only-asks", "energy-of", "inside-batch", "outside-batch"}  # fields, or beside nothing of that name
    return {o: n + "_lem" if n in taken and o not in plain else n for o, n in new.items() if o != n}


def respelled(text, path, whole, part):
    u = uncommented(text, path)
    out, at = [], 0
    for m in TOKEN.finditer(u):
        n = m.group(0)
        if u[max(0, m.start() - 3) : m.start()] in (" c.", "(c."):
            to = part.get(n) if whole is not part else None  # a step, whose name Rattle makes
        elif m.start() and u[m.start() - 1] == ".":
            to = part.get(n) or (re.search("[A-Z]", n) and "-" not in n and whole.get(n)) or None
        elif path.endswith(".rt") and n == n.lower() and "-" not in n:
            to = None  # a function of src/, which keeps its name
        else:
            to = whole.get(n) or part.get(n)
        if to:
            out += [text[at : m.start()], to]
            at = m.end()
    return re.sub("\u25cc([a-z]+[A-Z][A-Za-z]*)\u25cc", lambda m: "\u25cc" + snake(m.group(1)) + "\u25cc", "".join(out) + text[at:])


def pages(root):
    yield from (os.path.join(root, f) for f in sorted(os.listdir(root)) if f.endswith(".md"))
    for d, dirs, fs in os.walk(os.path.join(root, "docs")):
        yield from (os.path.join(d, f) for f in sorted(fs) if f.endswith(".md") and not f.startswith("PORT"))


def main(argv):
    texts = read(".")
    whole, part = names(texts)
    if argv == ["--list"]:
        for o, n in sorted(whole.items()):
            print("name", o, n)
        for o, n in sorted(part.items()):
            print("field", o, n, "ALSO " + whole[o] if o in whole and whole[o] != n else "")
        return 0
    turn(texts, whole, part)
    texts = read(".")
    inner = inner_names(texts)
    turn(texts, inner, inner)
    return 0


def turn(texts, whole, part):
    both = dict(part) | whole
    for p, t in texts.items():
        if not p.endswith(".edit"):
            write(p, t, respelled(t, p, whole, part))
        else:
            lines = t.split("\n")
            write(p, t, "\n".join(re.sub(r"^(old:|new:)(.*)$", lambda m: m.group(1) + respelled(m.group(2), p, whole, part), l) for l in lines))
    for p in pages("."):
        with open(p, encoding="utf-8") as f:
            t = f.read()
        write(p, t, re.sub(r"`[^`\n]+`", lambda m: TOKEN.sub(lambda n: both.get(n.group(0), n.group(0)), m.group(0)), t))


def write(path, old, new):
    if old != new:
        with open(path, "w", encoding="utf-8") as f:
            f.write(new)


if __name__ == "__main__":
    raise SystemExit(main(sys.argv[1:]))
