#!/usr/bin/env python3
"""Brings the definitions and lemmas of specs/ and proofs/ to snake case.

usage: python3 tools/spelling.py    at the top of the repository, once

A name is taken from a signature at the head of a line, or from a field of a record, in crates/*/specs and
crates/*/proofs; it is turned where it has a dash or a capital inside, in every file of crates/. Types, modules,
labels, the names of src/ and the names that the check makes (in the folders of proofs/) stay as they are.
"""
import glob
import re
import sys

HEAD = re.compile(r"^(?:(?:abbrev|unfoldable|pub)\s+)*([a-z][^\s:(){}.,;=]*)(?:\s[^:=]*)?\s:\s")
NESTED = re.compile(r"^(?:  |    (?=pub ))(?:(?:abbrev|unfoldable|pub)\s+)*([a-z][^\s:(){}.,;=]*)(?:\s[^:=]*)?\s:\s")
BLOCK = re.compile(r"^(?:(?:abbrev|unfoldable|pub)\s+)*(record|data|module)\s")
PARTS = {"getD": "get_or"}
# lemmas whose definition has the same name in snake case
LEMMAS = {"all-taken", "checks-at", "child-of", "mark-each", "new-children", "post-checks", "raw-values", "same-list", "settle-checks", "settled-stage", "value-by"}


# a lemma that the kit's script brought to the name of a definition
FIRST = {"crates/siphash/proofs/Words.antt": [("whole_words", "whole_words_lem")]}
# names that the check makes too: after a dot they stay in the folders of proofs/
MADE = {"count-is"}


def snake(name):
    parts = [PARTS.get(p, re.sub(r"(?<=[a-z0-9])([A-Z])", r"_\1", p).lower()) for p in name.split("-")]
    return "_".join(parts) + ("_lem" if name in LEMMAS else "")


def names():
    found = set()
    for path in sorted(glob.glob("crates/*/specs/*.antt") + glob.glob("crates/*/proofs/*.antt")):
        inside = False
        for line in open(path, encoding="utf-8"):
            if BLOCK.match(line):
                inside = True
                continue
            if line.strip() and not line[0].isspace():
                inside = False
            if line.startswith(("use ", "mod ", "pub mod ", "--")):
                continue
            m = NESTED.match(line) if inside else HEAD.match(line)
            if m and ("-" in m.group(1) or re.search(r"[a-z0-9][A-Z]", m.group(1))):
                found.add(m.group(1))
    return found


def main():
    turn = {n: snake(n) for n in names()}
    by = {}
    for n, s in turn.items():
        by.setdefault(s, []).append(n)
    for s, ns in sorted(by.items()):
        if len(ns) > 1:
            print(f"fall together: {s}: {', '.join(sorted(ns))}")
    one = re.compile(r"(?<![\w'\-])(?:" + "|".join(sorted(map(re.escape, turn), key=len, reverse=True)) + r")(?![\w'\-])")
    for path in sorted(glob.glob("crates/*/**/*.antt", recursive=True) + glob.glob("crates/*/src/*.rt")):
        if "/out/" in path:
            continue
        text = open(path, encoding="utf-8").read()
        new = text
        for old, other in FIRST.get(path, []):
            new = re.sub(rf"(?<![\w'\-]){old}(?![\w'\-])", other, new)
        of_function = path.count("/") > 3

        def turned(m):
            made = of_function and m.group(0) in MADE and m.string[m.start() - 1] == "."
            return m.group(0) if made else turn[m.group(0)]

        new = one.sub(turned, new)
        if new != text:
            open(path, "w", encoding="utf-8").write(new)
    print(f"{len(turn)} names")
    for n in sorted(turn):
        print(f"  {n} {turn[n]}")


if __name__ == "__main__":
    sys.exit(main())
