#!/usr/bin/env python3
"""Spells the toolchain's own names in proof files as it makes them today: a name from the source keeps its underscores.

usage: python3 tools/goal_names.py        at the top of the repository

`returns-then-is-err` becomes `returns-then-is_err`, since the source calls `is_err`. Names that the repository declares or that a
file imports from a library stay. The check decides whether a name is right: this script only spells it.
"""

import os
import re

PARTS = re.compile(r"(?<![\w'-])([A-Za-z_][\w']*(?:[-+][\w']+)+)(?![\w'-])")
# Kinds of goals, and fields of the records that the toolchain makes.
MADE = {"in_err", "in_ok", "invariant_of", "in_default", "overflow_add", "overflow_sub", "overflow_mul", "overflow_cast", "overflow_shl", "overflow_shr", "overflow_neg", "type_inv", "div_zero"}
IMPORTED = re.compile(r"\buse\s+[\w.]+\.\{([^}]*)\}")


def walk(kind):
    for folder, dirs, names in os.walk("crates"):
        dirs[:] = sorted(d for d in dirs if d != "out")
        yield from (os.path.join(folder, n) for n in sorted(names) if n.endswith(kind))


def source_names():
    """The words with underscores of all sources, as lists of their parts, the longest first."""
    found = set(MADE)
    for path in walk(".rt"):
        found |= set(re.findall(r"\b[a-z][a-z0-9]*(?:_[a-z0-9]+)+\b", open(path, encoding="utf-8").read()))
    return sorted((f.split("_") for f in found), key=len, reverse=True)


def spelled(name, sources):
    pieces = re.split(r"([-+])", name)
    words, marks = pieces[::2], pieces[1::2]
    out, i = words[0], 1
    at = 0
    while True:
        for source in sources:
            n = len(source)
            if words[at:at + n] == source and all(m == "-" for m in marks[at:at + n - 1]):
                out = out[: len(out) - len(words[at])] + "_".join(source)
                at += n - 1
                break
        if at >= len(marks):
            return out
        out += marks[at] + words[at + 1]
        at += 1


def main():
    sources, changed = source_names(), 0
    for path in walk(".antt"):
        if os.path.basename(path) not in ("Answers.antt", "Invariants.antt", "Proof.antt"):
            continue
        text = open(path, encoding="utf-8").read()
        kept = {n.split(" as ")[-1].strip() for m in IMPORTED.finditer(text) if "Goals" not in m[0] for n in m[1].split(",")}
        new = PARTS.sub(lambda m: m[1] if m[1] in kept else spelled(m[1], sources), text)
        if new != text:
            open(path, "w", encoding="utf-8").write(new)
            changed += 1
    print(f"{changed} files")


main()
