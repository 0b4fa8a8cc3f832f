#!/usr/bin/env python3
"""Brings the names of definitions and lemmas to one spelling: words in snake case, types in camel case.

usage: python3 tools/snake.py [--list]     at the top of the repository, once, after the port's own scripts

A name that is declared in specs/ or proofs/ (a definition, lemma, record, field or constructor) and has a dash or a capital
inside loses them: `out-depth` becomes `out_depth`, `Out-depth` becomes `OutDepth`, `endAt` becomes `end_at`. Names that Rattle
makes (goals, steps, invariants), functions of src/, strings and comments keep their spelling. --list only prints the names.
"""
import os
import re
import sys

# what a name is made of
LETTER = r"[\w'\-]"
HEAD = re.compile(r"^\s*(?:pub |abbrev |unfoldable |record |data )*(" + LETTER + r"+)\s*(?:[:({]|$)")
WORD = re.compile(r"(?<![\w'\-])[\w'\-]+(?![\w'\-])")
# files whose public names are Rattle's
MADE = {"Answers.antt", "Invariants.antt", "Proof.antt"}


def files(root, ends):
    for folder, dirs, names in os.walk(os.path.join(root, "crates")):
        dirs[:] = sorted(d for d in dirs if d != "out")
        for name in sorted(names):
            if name.endswith(ends):
                yield os.path.join(folder, name)


def turned(name):
    """The new spelling."""
    parts = name.split("-")
    if name[0].isupper():
        return "".join(p[:1].upper() + p[1:] for p in parts)
    return "_".join(re.sub(r"(?<=[a-z0-9])([A-Z])", lambda m: "_" + m.group(1).lower(), p) for p in parts)


def declared(path):
    """The names that a file of specs/ or proofs/ declares."""
    made = os.path.basename(path) in MADE
    for line in open(path, encoding="utf-8"):
        m = HEAD.match(line.rstrip("\n"))
        if not m or (made and line.lstrip().startswith(("pub ", "abbrev pub "))):
            continue
        rest = line[m.end(1):].lstrip()
        if rest.startswith((":", "(", "{")) and (":" in rest):
            yield m.group(1)


def names(root):
    found = set()
    for path in files(root, ".antt"):
        found.update(n for n in declared(path) if turned(n) != n)
    return found


def code_and_rest(path, text):
    """The text in pieces, each with whether names in it are turned: not in comments and strings."""
    mark = "--" if path.endswith(".antt") else "//"
    at = 0
    for m in re.finditer(re.escape(mark) + r"[^\n]*|\"(?:\\.|[^\"\\\n])*\"", text):
        # a dash or a slash inside a name or a path is no comment
        if m.group().startswith("--") and m.start() and not text[m.start() - 1].isspace():
            continue
        yield text[at:m.start()], True
        yield m.group(), False
        at = m.end()
    yield text[at:], True


def main():
    root = "."
    found = names(root)
    if "--list" in sys.argv:
        for n in sorted(found):
            print(n, turned(n))
        return
    for path in files(root, (".antt", ".rt")):
        text = open(path, encoding="utf-8").read()
        new = "".join(
            WORD.sub(lambda m: turned(m.group()) if m.group() in found else m.group(), piece) if code else piece
            for piece, code in code_and_rest(path, text))
        if new != text:
            open(path, "w", encoding="utf-8").write(new)


main()
