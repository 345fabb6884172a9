#!/usr/bin/env python3
"""Spells the names that this repository's own specs and lemmas declare as today's Rattle does: facts and types in upper
camel case, every other definition, lemma, field, constructor and variable in snake case.

usage: tools/port_names.py [--list]    at the top of the repository, once, after port.py

It turns whole words: in the code and comments of .antt files, in the clauses, ghost items and comments of .rt files, and
in the code spans of README.md and docs/. Names of src/, names that Rattle makes of the code (behind `goal.`, `c.`, `w.`,
`l.` or `g.` in a function's own proof files) and names of libraries stay. It stops where two names would fall together.
--list prints the names and writes nothing.
"""

import glob
import re
import sys

WORD = re.compile(r"[A-Za-zℕ_][A-Za-z0-9ℕ_]*(?:-[A-Za-z0-9ℕ_]+)*'*")
DECLARED = re.compile(
    r"^ *(?:(?:abbrev|unfoldable|pub|record|data|private) )*([^\s:({=]+)(?: [^:=]*)? :(?: |$)"
)
MEMBER = re.compile(r"^ *ghost (\w+)(?::| =)", re.M)
# What stands before a name that Rattle made of the code.
MADE = re.compile(r"(?<![\w'])(?:goal|c|w|l|g)\.$")
CLAUSE = re.compile(r"^\s*(?:requires|ensures|ghost)\b|^\s*//")
LIBRARY = re.compile(r"^(?:ghost )?use Rattle\.(?:std|core)\b[^{]*\{(.*)\}", re.M)


def read(path):
    with open(path, encoding="utf-8") as f:
        return f.read()


def files(*patterns):
    return sorted(p for it in patterns for p in glob.glob(it, recursive=True))


# Lemmas whose name would fall together with that of what they speak of.
APART = {
    "by-kind": "by_kind_lem",
    "count-of": "length_movements",
    "long-stop": "long_stop_lem",
    "no_gap": "no_gap_lem",
}

# Fields of specs/ that are spelled like the fields of src/ that they mirror.
MIRRORED = {"order_a", "order_b"}

LEMMAS = files("crates/*/specs/**/*.antt", "crates/*/proofs/*.antt")
ANSWERS = [p for p in files("crates/*/proofs/*/**/*.antt") if p not in LEMMAS]
SOURCES = files("crates/*/src/**/*.rt")
PAGES = files("README.md", "docs/*.md")


def spelled(name):
    """The name in today's spelling."""
    if name in APART:
        return APART[name]
    bare = name.rstrip("'")
    end = name[len(bare) :]
    if bare[0].isupper():
        return "".join(part[0].upper() + part[1:] for part in bare.split("-")) + end
    words = re.sub(r"(?<=[a-z0-9])(?=[A-Z])|(?<=[A-Z])(?=[A-Z][a-z])", "_", bare)
    return words.replace("-", "_").lower() + end


def code(text):
    """The text without its comments."""
    return re.sub(r"--(?=\s).*", "", text)


def names():
    """Each name that is to turn, with its new spelling."""
    declared, library = set(), set()
    for path in LEMMAS + ANSWERS:
        text = read(path)
        for found in LIBRARY.findall(text):
            for item in found.split(","):
                library.update(item.strip().split(" as "))
    for path in LEMMAS:
        for line in code(read(path)).split("\n"):
            m = DECLARED.match(line)
            if m and WORD.fullmatch(m[1]):
                declared.add(m[1])
        # Variables, and names that a pattern or a `let` binds, whose words are joined by capitals or dashes.
        words = WORD.findall(code(re.sub(r"(?m)^use .*", "", read(path))))
        declared.update(it for it in words if re.match(r"[a-z][a-z0-9]*(?:[A-Z]|-)", it))
    for path in SOURCES:
        declared.update(MEMBER.findall(read(path)))
    return {it: spelled(it) for it in declared - library if spelled(it) != it}


def check(turning):
    """Stops where two names would be one in some file."""
    bad = False
    for path in LEMMAS + ANSWERS:
        text = re.sub(r"(?m)^use \S*?(?=\{|$| as )", "", code(read(path)))
        met = {}
        for old in sorted(set(WORD.findall(text))):
            other = met.setdefault(turning.get(old, old), old)
            if other != old and turning.get(old, old) not in MIRRORED:
                print(f"falls together in {path}: {other} and {old}")
                bad = True
    if bad and "--list" not in sys.argv:
        sys.exit(1)


def turned(text, turning, made=False):
    def one(m):
        behind = text[max(0, m.start() - 16) : m.start()]
        if made and MADE.search(behind):
            return m[0]
        bare = m[0].rstrip("'")
        return turning.get(m[0]) or turning.get(bare, bare) + m[0][len(bare) :]

    return WORD.sub(one, text)


def source(text, turning):
    """A .rt file: clauses, ghost items and comments turn, the rest stays."""
    out, depth = [], 0
    for line in text.split("\n"):
        if depth or CLAUSE.match(line):
            if not re.match(r"\s*//", line):
                depth += line.count("{") - line.count("}")
            line = turned(line, turning)
        out.append(line)
    return "\n".join(out)


def page(text, turning):
    """A page: code spans turn."""
    return re.sub(r"`[^`\n]+`", lambda m: turned(m[0], turning), text)


def main():
    turning = names()
    check(turning)
    if "--list" in sys.argv:
        for old, new in sorted(turning.items()):
            print(old, new)
        return
    for path in LEMMAS + ANSWERS + SOURCES + PAGES:
        text = read(path)
        if path in SOURCES:
            new = source(text, turning)
        elif path in PAGES:
            new = page(text, turning)
        else:
            new = turned(text, turning, made=path in ANSWERS)
        if new != text:
            with open(path, "w", encoding="utf-8") as f:
                f.write(new)


main()
