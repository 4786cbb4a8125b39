#!/usr/bin/env python3
"""Brings the repository's own names of definitions, lemmas and record fields to the library's spelling: words in snake case.

usage: tools/respell.py            rewrites crates/*/{src,specs,proofs} in place (run once, right after the kit's own script)
       tools/respell.py --list     prints the renamings and what falls together

A name is renamed where a file of specs/ or a file of lemmas right in proofs/ declares it: `countBelow` and `count-below` become
`count_below`. Types and modules keep their capitals, names of the library and names that the checker generates stay as they are, and so
do functions of src/, exported names, strings, inputs and outputs.
"""
import glob
import os
import re
import sys

TOP = os.path.dirname(os.path.dirname(os.path.abspath(__file__)))
TOKEN = re.compile(r"[^\s(){}\[\];,.\"@\u00ab\u00bb]+")
DECLARED = re.compile(r"^\s*((?:unfoldable|abbrev|pub|ruleset)\s+)*([^\s(){}\[\];,.\"@:=]+)\s*((\{[^}]*\}\s*|\([^)]*\)\s*)*):(?:\s|$)")
USED = re.compile(r"^\s*use\s+([^\s{]+?)(?:\.\{(.*?)\}|\s|$)", re.S | re.M)
LOCAL = re.compile(r"(?:let\s+|[λ(]\s*)([a-z][^\s(){}\[\];,.\"@:=]*)")


def files(*patterns):
    found = []
    for p in patterns:
        found += glob.glob(os.path.join(TOP, "crates", "*", p), recursive=True)
    return sorted(f for f in found if "/out/" not in f)


def read(path):
    with open(path, encoding="utf-8") as f:
        return f.read()


def snake(name):
    name = name.replace("\u2032", "'")
    if not re.match(r"^[a-z]", name):
        return name
    name = re.sub(r"(?<=[a-z0-9'])([A-Z])(?=[a-z0-9])", lambda m: "_" + m.group(1).lower(), name)
    name = re.sub(r"(?<=[a-z0-9])-(?=[a-z0-9])", "_", name)
    return name


def imported():
    """Names that come from libraries: they stay."""
    theirs = set()
    for f in files("specs/**/*.antt", "proofs/**/*.antt"):
        for m in USED.finditer(read(f)):
            if not re.match(r"Rattle\.(%s)\." % "|".join(CRATES), m.group(1)) and m.group(2):
                theirs.update(w.strip() for w in re.sub(r"\s+as\s+\S+", "", m.group(2)).split(","))
    return theirs


CRATES = sorted(os.path.basename(os.path.dirname(c)) for c in glob.glob(os.path.join(TOP, "crates", "*", "src")))
KEYWORDS = {"use", "module", "where", "record", "data", "let", "in", "elim", "open", "unfolding", "infixr", "infixl", "infix", "λ"}


def declared():
    names = {}
    for f in files("specs/*.antt", "proofs/*.antt"):
        for line in read(f).split("\n"):
            if line.lstrip().startswith("--"):
                continue
            m = DECLARED.match(line)
            if m and m.group(2) not in KEYWORDS:
                names.setdefault(m.group(2), set()).add(os.path.relpath(f, TOP))
            for n in TOKEN.findall(line):
                if re.fullmatch("[a-z][a-z0-9]*([A-Z][a-z0-9]+)+'?", n):
                    names.setdefault(n, set()).add(os.path.relpath(f, TOP))
    return names


def rank(name, where):
    """Of names that fall together, the first keeps the plain name, and the others get the ending of a lemma named as its function."""
    return (not any("/specs/" in f for f in where), not re.search("[A-Z]", name), "-" in name, name)


def table():
    theirs, mine, names, by_new = imported(), declared(), {}, {}
    for n in mine:
        if n not in theirs:
            by_new.setdefault(snake(n), []).append(n)
    for new, olds in by_new.items():
        olds.sort(key=lambda n: rank(n, mine[n]))
        for at, old in enumerate(olds):
            end = "_lem" if at or (new != old and new in theirs) else ""
            if new + end != old:
                names[old] = new + end
    return names


def rename(text, names, source):
    """A name that is in snake case already may be a function's of src/ too: it is renamed only where a lemma of that name stands or is used."""
    brought = set(w.strip() for m in USED.finditer(text) if m.group(2) for w in m.group(2).split(","))
    brought |= set(m.group(2) for m in map(DECLARED.match, text.split("\n")) if m)

    def one(m):
        old = m.group(0)
        if re.fullmatch("[a-z0-9_]+", old) and (source or old not in brought or text[m.start() - 1:m.start()] == "."):
            return old
        new = names.get(old, old)
        return new[:-4] if text[m.start() - 1:m.start()] == "." and new.endswith("_lem") else new

    if not source:
        return TOKEN.sub(one, text)
    parts = re.split(r"(\"(?:[^\"\\]|\\.)*\")", text)
    return "".join(p if i % 2 else TOKEN.sub(one, p) for i, p in enumerate(parts))


def main(argv):
    names = table()
    if argv:
        for old in sorted(names):
            print(old, names[old])
        mine = declared()
        by_new = {}
        for n in mine:
            by_new.setdefault(names.get(n, n), []).append(n)
        for new, olds in sorted(by_new.items()):
            if len(olds) > 1:
                print("together:", new, olds, [sorted(mine[o]) for o in olds])
        theirs = imported()
        for old, new in sorted(names.items()):
            if new in theirs:
                print("library's:", old, new)
        return
    for f in files("src/*.rt", "specs/**/*.antt", "proofs/**/*.antt"):
        text = read(f)
        now = rename(text, names, f.endswith(".rt"))
        if now != text:
            with open(f, "w", encoding="utf-8") as out:
                out.write(now)


main(sys.argv[1:])
