#!/usr/bin/env python3
"""Gives the definitions and lemmas of this repository the spelling of today's Rattle: words in snake case, a dash only
between the names of two definitions.

usage: python3 tools/respell.py, at the top, once, on what port.py wrote. tools/respell.txt has a line for each name: what it
was, as it had landed or as port.py left it, and what it is. Names of Rust code, strings, inputs and outputs stay.
"""
import glob
import os
import re

TABLE = dict(line.split() for line in open("tools/respell.txt", encoding="utf-8"))
ANTT = re.compile(r"[^\s(){}\[\].,;@|«»`\"]+")
WORD = re.compile(r"[A-Za-z_][A-Za-z0-9_']*")


def antt(text, walked):
    """A file of antt. In the proof of a function a dashed name behind a dot is Rattle's own and stays."""

    def one(m):
        name = m.group(0)
        if walked and "-" in name and text[m.start() - 1 : m.start()] == ".":
            return name
        return TABLE.get(name, name)

    return ANTT.sub(one, text)


def rust(text):
    """A source file: its strings stay, and names with a dash stand in imports alone."""
    parts = re.split(r'(b?"(?:\\.|[^"\\])*")', text)
    for i in range(0, len(parts), 2):
        lines = parts[i].split("\n")
        for j, line in enumerate(lines):
            word = ANTT if line.startswith("ghost use") else WORD
            lines[j] = word.sub(lambda m: TABLE.get(m.group(0), m.group(0)), line)
        parts[i] = "\n".join(lines)
    return "".join(parts)


def edit(text):
    """A must-fail edit: the texts that it takes and gives, not what it says of itself."""
    kind = rust
    lines = text.split("\n")
    for i, line in enumerate(lines):
        if line.startswith("file:"):
            kind = rust if line.strip().endswith(".rt") else lambda t: antt(t, False)
        elif line.startswith(("old:", "new:")):
            lines[i] = line[:4] + kind(line[4:])
    return "\n".join(lines)


def page(text):
    """A page: names between backticks."""
    return re.sub(r"`([^`\n]+)`", lambda m: "`" + TABLE.get(m.group(1), m.group(1)) + "`", text)


def rewrite(path, turn):
    with open(path, encoding="utf-8") as f:
        old = f.read()
    new = turn(old)
    if new != old:
        with open(path, "w", encoding="utf-8") as f:
            f.write(new)


for path in glob.glob("crates/*/specs/**/*.antt", recursive=True) + glob.glob("crates/*/proofs/*.antt"):
    rewrite(path, lambda t: antt(t, False))
for path in glob.glob("crates/*/proofs/*/**/*.antt", recursive=True):
    rewrite(path, lambda t: antt(t, True))
for path in glob.glob("crates/*/src/**/*.rt", recursive=True):
    rewrite(path, rust)
for path in glob.glob("crates/*/must-fail/*.edit"):
    rewrite(path, edit)
for path in ["README.md", *glob.glob("docs/[A-Z]*.md"), *glob.glob("docs/changes/*.md")]:
    rewrite(path, page)
