#!/usr/bin/env python3
"""Brings this repository's own definitions and lemmas to the spelling of today's Rattle: words in snake case.

usage: tools/respell.py     at the top of the repository, once, after the kit's port.py

It read the names that stand in crates/*/specs, crates/*/proofs and in the clauses of crates/*/src, and writes each that
is in camel case (tooWide) in snake case (too_wide), there, in the must-fail edits and in the pages. Types, modules,
facts, functions of src/, exported C names and numbers (0x0A) keep their names. Where a lemma has the name that its
definition now takes, the lemma gets _lem behind it. docs/PORT.md lists what was renamed.
"""

import glob
import re
import sys

WORD = re.compile(r"(?<![\w'])[A-Za-z_\u0080-\uffff][\w'\u0080-\uffff]*(?:-[\w'\u0080-\uffff]+)*")
CAMEL = re.compile(r"[a-z0-9][A-Z]")

# A lemma that fell together with its definition, and an old name of the library inside a lemma's.
FIRST = {"filled_at": "filled_at_lem", "missed_by": "missed_by_lem"}
PARTS = {"getD": "get_or"}

# Functions of src/ (and so the folders of their proofs) that have a name of FIRST's: none may be changed there.
CRATES = ("crates/*/specs/**/*.antt", "crates/*/proofs/**/*.antt", "crates/*/src/**/*.rt")
OTHERS = ("crates/*/must-fail/*.edit", "README.md", "docs/**/*.md")


def files(patterns):
    return sorted(f for p in patterns for f in glob.glob(p, recursive=True))


def part(word):
    if word in PARTS:
        return PARTS[word]
    if not word[0].islower() or not CAMEL.search(word):
        return word
    return re.sub(r"(?<=[a-z0-9])([A-Z])", lambda m: "_" + m.group(1).lower(), word)


def respelt(word):
    return "-".join(part(p) for p in word.split("-"))


def comments_and_strings(path, text):
    """The stretches of a source file that hold strings: they are left alone."""
    if not path.endswith(".rt"):
        return []
    return [m.span() for m in re.finditer(r'b?"(?:[^"\\\n]|\\.)*"', text)]


def main():
    known = set()
    for path in files(CRATES):
        with open(path, encoding="utf-8") as f:
            text = f.read()
        known |= {w for w in WORD.findall(text) if respelt(w) != w}
    changed = 0
    for path in files(CRATES + OTHERS):
        with open(path, encoding="utf-8") as f:
            text = f.read()
        strings = comments_and_strings(path, text)

        def swap(match):
            word = match.group(0)
            if any(a <= match.start() < b for a, b in strings):
                return word
            if path.endswith(".antt") and word in FIRST:
                return FIRST[word]
            return respelt(word) if word in known else word

        new = WORD.sub(swap, text)
        if new != text:
            changed += 1
            with open(path, "w", encoding="utf-8") as f:
                f.write(new)
    for word in sorted(known):
        print(f"{word} {respelt(word)}")
    print(f"respell: {len(known)} names, {changed} files", file=sys.stderr)


main()
