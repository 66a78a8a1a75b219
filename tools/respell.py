#!/usr/bin/env python3
"""Brings the repository's own names in specs/, proofs/, clauses and docs to the spelling of today's Rattle.

usage: python3 tools/respell.py      at the top, once, right after the kit's port.py

Functions, lemmas, fields and local names of antt are in snake case, types and facts in upper camel case.
Names of src/, strings, inputs and outputs stay: a name of antt is changed only in .antt files, in the clauses and
imports of .rt files, in the lines of must-fail edits, and between backticks in docs.
"""
import glob
import re

# names that are bound inside a definition, and an alias that was a capital
LOCAL = ["a-column", "a-place", "a-row", "static-width", "dynamic-width", "with-order", "own-list"]

SIGNATURE = re.compile(
    r"^[ \t]*(?:abbrev )?(?:unfoldable )?(?:pub )?(?:abbrev )?(?:record |data )?"
    r"([A-Za-z][^\s(){};,.:]*)\s*(?:\{[^\n]*?\}\s*|\([^\n]*?\)\s*)*:\s*(.*)$",
    re.M,
)
LETTER = r"A-Za-z0-9_'\u2032\u00b7-"


def spelled(name):
    if name[0].isupper():
        return "".join(part[0].upper() + part[1:] for part in name.split("-"))
    return name.replace("-", "_")


def names():
    found = set(LOCAL)
    for f in antt_files():
        with open(f, encoding="utf-8") as it:
            for m in SIGNATURE.finditer(it.read()):
                # a goal's name is Rattle's own
                if "-" in m.group(1) and not m.group(2).startswith("goal."):
                    found.add(m.group(1))
    return {n: spelled(n) for n in found}


def antt_files():
    return sorted(glob.glob("crates/*/specs/**/*.antt", recursive=True) + glob.glob("crates/*/proofs/**/*.antt", recursive=True))


def outside_strings(text, change):
    """The text with `change` made outside of string literals and byte strings."""
    return "".join(p if i % 2 else change(p) for i, p in enumerate(re.split(r'(b?"(?:[^"\\\n]|\\.)*")', text)))


def main():
    turned = names()
    token = re.compile(f"(?<![{LETTER}])(" + "|".join(sorted(map(re.escape, turned), key=len, reverse=True)) + f")(?![{LETTER}])")
    swap = lambda t: token.sub(lambda m: turned[m.group(1)], t)
    files = {f: swap for f in antt_files()}
    files |= {f: lambda t: outside_strings(t, swap) for f in glob.glob("crates/*/src/**/*.rt", recursive=True)}
    files |= {f: swap for f in glob.glob("crates/*/must-fail/*.edit")}
    files |= {f: lambda t: re.sub(r"`[^`\n]*`", lambda m: swap(m.group(0)), t) for f in glob.glob("docs/*.md") + ["README.md"]}
    changed = 0
    for f, change in sorted(files.items()):
        with open(f, encoding="utf-8") as it:
            old = it.read()
        # in the walk's proofs an alias of one letter was a capital
        new = re.sub(r"(?<![\w'-])W(?![\w'-])", "walk", change(old)) if f.endswith("ranking/proofs/Walking.antt") else change(old)
        if new != old:
            changed += 1
            with open(f, "w", encoding="utf-8") as it:
                it.write(new)
    print(f"{len(turned)} names, {changed} files")


main()
