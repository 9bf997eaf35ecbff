#!/usr/bin/env python3
"""Spells the definitions, lemmas, fields and constructors that the crates declare in snake case, as `fractionOf` to `fraction_of`.

usage: tools/respell.py        at the top of the repository, after the kit's port.py

It turns whole words of the .antt files, of the clauses and `ghost use` items of the .rt files, of the lines of must-fail/*.edit, and of
the comments' code spans. Types, modules and the functions of src/ keep their names; so does a name that a file imports from a library.
It stops, and writes nothing, where two names would fall together.
"""

import collections
import os
import re
import sys

DECLARED = re.compile(r"^\s*(?:module _ .* where\s+)?(?:(?:pub|abbrev|unfoldable|record|data|private)\s+)*([A-Za-z][\w'\-]*)\s+:\s+(?!tie\.Need|goal\.)", re.M)
WORD = re.compile(r"""[^\s(){}.;,@"«»`]+""")
LIBRARY = re.compile(r"^use (?!Rattle\.(?!std)|package)[\w.\-]+\.\{([^}]*)\}", re.M)
CLAUSE = re.compile(r"(?:requires|ensures|ghost use|ghost)\b[^\n]*|//[^\n]*")
SPAN = re.compile(r"`[^`\n]+`")


# Lemmas that would get the name of a definition that they are about, by their spelling before.
LEMMAS = "entry-at is-empty all_pass all-zero draw-order parameters-order read-text refused-line request-asked".split()

# Parameters of definitions.
PARAMETERS = "minTop minBottom maxTop maxBottom minAll maxAll withIts".split()


def snake(name):
    if name in LEMMAS:
        return name.replace("-", "_") + "_lem"
    words = re.sub(r"(?<=[a-z0-9])[A-Z]", lambda m: "_" + m[0].lower(), name)
    return words.replace("-", "_")


def files(*ends):
    for folder, dirs, names in os.walk("crates"):
        dirs[:] = sorted(d for d in dirs if d != "out")
        for name in sorted(names):
            if name.endswith(ends):
                yield os.path.join(folder, name)


def read(path):
    with open(path, encoding="utf-8") as f:
        return f.read()


def table():
    """Old name to new name, of all that is declared."""
    found = {}
    for path in files(".antt"):
        text = re.sub(r"--[^\n]*", "", read(path))
        for name in DECLARED.findall(text):
            if name[0].islower() and snake(name) != name:
                found[name] = snake(name)
    return found | {name: snake(name) for name in PARAMETERS}


def turned(text, names, labels=False):
    """Each word that is a name; behind a dot of a function's proof stands a label of the source, which is no lemma."""

    def one(m):
        new = names.get(m[0], m[0])
        return new.removesuffix("_lem") if labels and m[0] in LEMMAS and text[m.start() - 1 : m.start()] == "." else new

    return WORD.sub(one, text)


def in_spans(text, names):
    return SPAN.sub(lambda m: turned(m[0], names), text)


def antt(text, names, path):
    labels = path.endswith("/Proof.antt")
    of_library = {w.strip() for m in LIBRARY.findall(text) for w in m.split(",")}
    mine = {a: b for a, b in names.items() if a not in of_library}
    out = []
    for line in text.split("\n"):
        if line.startswith("use ") and not re.match(r"use Rattle\.(?!std\.)", line):
            out.append(line)
            continue
        code, dash, comment = line.partition("--")
        if dash and code and not code[-1].isspace():
            code, dash, comment = line, "", ""
        out.append(turned(code, mine, labels) + dash + in_spans(comment, mine))
    return "\n".join(out)


def rust(text, names, path):
    out, depth = [], 0
    for line in text.split("\n"):
        bare = line.strip()
        if bare.startswith("//"):
            line = in_spans(line, names)
        elif depth or re.match(r"(requires|ensures|ghost)\b", bare):
            line = turned(line, names)
            depth += line.count("{") - line.count("}")
        out.append(line)
    return "\n".join(out)


def edit(text, names, path):
    """An edit's lines: antt's words where its file is one of antt, else the clauses alone."""
    of_antt, out = False, []
    for line in text.split("\n"):
        if line.startswith("file:"):
            of_antt = line.rstrip().endswith(".antt")
        if line.startswith(("old:", "new:")):
            clause = re.match(r"(old|new):\s*(requires|ensures|ghost)\b", line)
            line = turned(line, names) if of_antt or clause else line
        elif line.startswith("#"):
            line = in_spans(line, names)
        out.append(line)
    return "\n".join(out)


def fall_together(names):
    """Names that would meet another one of the same file; the proof of a function goes by labels of the source, and is read by no other file."""
    met = collections.defaultdict(set)
    for path in files(".antt"):
        if path.endswith("/Proof.antt"):
            continue
        text = re.sub(r"(?m)^\s*--[^\n]*|^use [\w.]*", "", read(path))
        words = set(WORD.findall(re.sub(r"\b(?:Rattle|tie)\.[\w.]*", "", text)))
        for old, new in names.items():
            if old in words and new in words and new not in LEMMAS:
                met[old, new].add(path)
    back = collections.defaultdict(set)
    for old, new in names.items():
        back[new].add(old)
    for new, olds in back.items():
        if len(olds) > 1:
            met[tuple(sorted(olds)), new].add("(two old names)")
    return met


def main():
    names = table()
    met = fall_together(names)
    for (old, new), where in sorted(met.items(), key=str):
        print(f"met: {old} -> {new}: {', '.join(sorted(where)[:4])}", file=sys.stderr)
    if met:
        return 1
    how = {".antt": antt, ".rt": rust, ".edit": edit}
    for path in files(*how):
        text = read(path)
        new = how[os.path.splitext(path)[1]](text, names, path)
        if new != text:
            with open(path, "w", encoding="utf-8") as f:
                f.write(new)
    print(f"{len(names)} names are in snake case")
    return 0


if __name__ == "__main__":
    sys.exit(main())
