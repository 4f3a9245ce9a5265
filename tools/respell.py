#!/usr/bin/env python3
"""Brings the names of definitions and lemmas to the spelling that Rattle's pages ask for: words in snake case.

usage: tools/respell.py [--dry]      at the top of the repository, behind port.py

It renames what the crates' specs and lemmas declare, wherever it stands: in .antt and .rt files, in the edits below must-fail,
and between backquotes in the documents. Types, facts and modules keep their capitals; functions of src/ have snake case already.
A dash stays where it joins the names of two definitions, as in flat_map-append; else it becomes _. A lemma that would have a
definition's name gets _lem. It prints which other names fall together in a file: a definition with a function of src/, say.
"""
import collections
import glob
import os
import re
import sys

TOKEN = re.compile(r"(?<![\w'-])[a-z][\w'-]*(?<![-])")
HEAD = re.compile(r"^(?:\s*)((?:(?:pub|abbrev|unfoldable|opaque|instance|private)\s+)*)([a-z][\w'-]*)\s*:", re.M)
KIT_WORDS = {"length", "drop", "take", "append", "map", "set", "replicate", "reverse", "flat_map", "get_or", "sum", "concat", "filter"}

# Lemmas that port.py gave the name which a definition gets here.
LEMMAS = {
    "crates/printer/proofs/LimitsNetwork.antt": ("with_values",),
    "crates/printer/proofs/Planned.antt": ("bytes_read", "value_read"),
    "crates/received_macros/proofs/Laws.antt": ("entry_length",),
    "crates/received_macros/proofs/Defining.antt": ("entry_length",),
    "crates/example_claims/proofs/Examples.antt": ("same_bytes",),
    "crates/example_claims/proofs/Visible.antt": ("same_bytes",),
}


def snake(word):
    return re.sub(r"(?<=[a-z0-9])([A-Z])", lambda m: "_" + m[1].lower(), word)


def read(path):
    with open(path, encoding="utf-8") as f:
        return f.read()


def crate_files(*endings):
    found = []
    for path in glob.glob("crates/*/**/*", recursive=True):
        if path.endswith(endings) and "/out/" not in path and os.path.isfile(path):
            found.append(path)
    return sorted(found)


def respelled(word, defined):
    """The new spelling of a name: each part in snake case, and a dash only between the names of two definitions."""
    parts = [snake(p) for p in word.split("-")]
    made = parts[0]
    for before, part in zip(parts, parts[1:]):
        made += ("-" if before in defined and part in defined else "_") + part
    return made


def renamings():
    definitions, lemmas, camel = set(), set(), set()
    for path in crate_files(".antt", ".rt"):
        text = read(path)
        for m in TOKEN.finditer(text):
            if "-" not in m[0] and re.search(r"[a-z0-9][A-Z]", m[0]):
                camel.add(m[0])
        folder = path.split("/")
        if path.endswith(".rt"):
            continue
        names = {m[2] for m in HEAD.finditer(text)}
        if folder[2] == "specs":
            definitions |= names
        elif folder[2] == "proofs" and len(folder) == 4:
            lemmas |= names
    defined = {snake(d) for d in definitions if "-" not in d and snake(d) != d} | KIT_WORDS
    table = {}
    for name in camel | {n for n in definitions | lemmas if "-" in n}:
        new = respelled(name, defined)
        if new != name:
            table[name] = new
    return table


def clashes(table):
    """Names that fall together in one file: two old ones, or an old one with a name that stands there already."""
    for path in crate_files(".antt", ".rt"):
        words = set(m[0] for m in TOKEN.finditer(read(path)))
        made = collections.defaultdict(set)
        for w in words:
            made[table.get(w, w)].add(w)
        for new, olds in sorted(made.items()):
            if len(olds) > 1:
                yield path, new, sorted(olds)


def main(argv):
    table = renamings()
    while True:
        found = list(clashes(table))
        dashed = {old for path, new, olds in found for old in olds if "-" in old and old in table}
        if not dashed:
            break
        for old in dashed:
            table[old] += "_lem"
    for path, new, olds in found:
        print("%s: %s all become %s" % (path, ", ".join(olds), new))
    if "--dry" in argv:
        for old in sorted(table):
            print("%s -> %s" % (old, table[old]))
        return 0
    rename = lambda m: table.get(m[0], m[0])
    for path in crate_files(".antt", ".rt", ".edit"):
        text = read(path)
        for lemma in LEMMAS.get(path, ()):
            text = re.sub(r"(?<![\w'-])%s(?![\w'-])" % lemma, lemma + "_lem", text)
        new = TOKEN.sub(rename, text)
        if new != text:
            with open(path, "w", encoding="utf-8") as f:
                f.write(new)
    quoted = lambda m: TOKEN.sub(rename, m[0])
    for path in ["README.md", "CONTRIBUTING.md"] + sorted(glob.glob("docs/*.md")):
        text = read(path)
        new = re.sub(r"`[^`\n]*`", quoted, text)
        if new != text:
            with open(path, "w", encoding="utf-8") as f:
                f.write(new)
    print("%d names" % len(table))
    return 0


if __name__ == "__main__":
    raise SystemExit(main(sys.argv[1:]))
