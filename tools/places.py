#!/usr/bin/env python3
"""Counts, in crates/*/src and crates/*/proofs, the places that docs/DESIGN-PASS.md speaks of. Run at the top of a checkout:

    python3 tools/places.py [-v] [COMMIT]

With -v each place is written with its file and line. With no COMMIT it counts the files as they lie there."""
import collections
import re
import subprocess
import sys

args = [a for a in sys.argv[1:] if a != "-v"]
verbose = "-v" in sys.argv
commit = args[0] if args else None


def git(*words):
    return subprocess.run(["git", *words], capture_output=True, text=True, check=True).stdout


def files(pattern):
    names = git("ls-tree", "-r", "--name-only", commit) if commit else git("ls-files")
    return [n for n in names.split("\n") if re.fullmatch(pattern, n)]


def text(name):
    return git("show", f"{commit}:{name}") if commit else open(name).read()


sources = {n: text(n) for n in files(r"crates/\w+/src/\w+\.rt")}
proofs = {n: text(n) for n in files(r"crates/\w+/proofs/.*\.antt")}


def lines(pattern, where=sources):
    """The code lines (no comment, no clause, no import) that the pattern is found in."""
    found = []
    for name, whole in where.items():
        for i, line in enumerate(whole.split("\n"), 1):
            bare = line.strip()
            if bare.startswith(("//", "ghost ", "use ", "requires", "ensures", "--")):
                continue
            if re.search(pattern, line):
                found.append((name, i, bare))
    return found


def functions():
    """Each function: its file, line, name, parameters, clauses and body."""
    for name, whole in sources.items():
        for m in re.finditer(r"^( *)(?:pub(?:\(crate\))? )?(?:extern \"C\" )?fn (\w+)(.*?)^\1\{\n(.*?)^\1\}", whole, re.M | re.S):
            yield name, whole[: m.start()].count("\n") + 1, m.group(2), m.group(3), m.group(4)
        for m in re.finditer(r"^( *)(?:pub(?:\(crate\))? )?(?:extern \"C\" )?fn (\w+)([^\n]*) \{\n(.*?)^\1\}", whole, re.M | re.S):
            yield name, whole[: m.start()].count("\n") + 1, m.group(2), m.group(3), m.group(4)


def repeated_facts():
    facts = collections.defaultdict(list)
    for name, line, fn, head, _ in functions():
        for clause in re.findall(r"requires(?: \w+)? \{ (.*) \}", head):
            for fact in re.split(r" × ", clause.strip()):
                facts[fact.strip("() ")].append((name, line, fn))
    return [(w[0][0], w[0][1], f"{fact}: {len(w)} functions") for fact, w in facts.items() if len(w) >= 3]


def travelling():
    sets = collections.defaultdict(list)
    for name, line, fn, head, _ in functions():
        inside = re.match(r"(?:<.*?>)?\((.*?)\)(?: ->|\n|$)", head, re.S)
        if inside:
            names = re.findall(r"(\w+): ", inside.group(1))
            for i in range(len(names)):
                for j in range(i + 2, len(names) + 1):
                    sets[tuple(names[i:j])].append((name, line, fn))
    many = {k: v for k, v in sets.items() if len(v) >= 3}
    largest = [k for k in many if not any(k != o and len(many[o]) >= len(many[k]) and set(k) <= set(o) for o in many)]
    return [(many[k][0][0], many[k][0][1], f"({', '.join(k)}): {len(many[k])} functions") for k in largest]


def twins():
    """Functions whose bodies are the same when names, numbers and types are taken out."""
    groups = collections.defaultdict(list)
    for name, line, fn, _, body in functions():
        body = re.sub(r"//.*", "", body)
        bare = re.sub(r"\b[A-Za-z_]\w*(?:::\w+)*|\b\d[\w.]*|b?\"[^\"]*\"|b?'[^']*'", "x", body)
        bare = re.sub(r"\s+", "", bare)
        if len(bare) > 8:
            groups[bare].append((name, line, fn))
    return [(g[0][0], g[0][1], ", ".join(f"{n.split('/')[1]}::{f}" for n, _, f in g)) for g in groups.values() if len(g) > 1]


POINTS = [
    ("1 enums", lambda: lines(r"^\s*(pub(\(crate\))? )?enum ")),
    ("1 variants that stand for a refusal or for nothing", lambda: lines(r"^\s+(Refused\(|Unread,|Unknown,|Failed,|Damaged,|Damage,|End,|Unwritten,|TooLong,|Stopped)")),
    ("1 flags: functions and fields that are a bool", lambda: lines(r"-> bool|: bool\b")),
    ("1 numbers for kinds, refusals, entries, acts", lambda: lines(r"\b(kind|number|entry|act|refusal|stopped|copied): (u16|u32|u64|usize)\b")),
    ("2 bodies alike but for names, numbers and types", twins),
    ("3 while and loop", lambda: lines(r"^\s*(while|loop|let \w+ = loop)\b")),
    ("3 for over numbers, and not over what they number", lambda: lines(r"^\s*for \w+ in .*\.\.")),
    ("3 an index or a count moved by hand", lambda: lines(r"(\+=|-=) 1;")),
    ("4 casts", lambda: lines(r"\bas (u8|u16|u32|u64|usize|i64|f64)\b")),
    ("4 comparing, least, most, number and text by hand", lambda: lines(r"fn (same\w*|is_same\w*|smaller|larger|widen|flipped|number|is_finite|is_word|\w*_of)\(")),
    ("4 what a write or print answers, let go by hand", lambda: lines(r"let _ = rt\.")),
    ("5 facts that three requires or more share", repeated_facts),
    ("5 parameters that three functions or more share in a row", travelling),
    ("6 fixed buffers", lambda: lines(r"= \[0u?\d*;|\[u\d+; \w+\] =|= \[0u8\]")),
    ("6 a length or place beside its buffer", lambda: lines(r"\[\.\.(n|length|count)\]|\((out|book|text|bytes|line|tape), (at|next|0|from|to)\b")),
    ("7 dyn, function pointers, closures taken", lambda: lines(r"\bdyn \w|: fn\(|impl Fn|\bF: Fn|FnMut|FnOnce")),
    ("8 answers", lambda: lines(r"^pub [\w+-]+ : goal\.", {n: t for n, t in proofs.items() if n.endswith("Answers.antt")})),
    ("8 of them only a search", lambda: lines(r"= search(\s|$)", {n: t for n, t in proofs.items() if n.endswith("Answers.antt")})),
    ("8 lines of proofs", lambda: [(n, 0, "")for n, t in proofs.items() for l in t.split("\n") if l.strip()]),
    ("lines of code", lambda: [(n, 0, "") for n, t in sources.items() for l in t.split("\n") if l.strip()]),
]

for title, places in POINTS:
    found = places()
    print(f"{len(found):6}  {title}")
    if verbose and "lines of" not in title and "answers" not in title:
        for name, line, said in found:
            print(f"        {name}:{line}: {said}")
