#!/usr/bin/env python3
"""Spells the repository's own definitions and lemmas in snake case.

usage: python3 tools/snake_names.py        at the top of the repository, once, after the kit's own script

A name is the repository's own where a file of specs/ or proofs/ declares it: as a definition, lemma, field, constructor or local.
Names of goals, which the toolchain makes, and names of libraries stay. Comments, src/ outside clauses and edits of src/ stay.
It stops with a list, and writes nothing, where two names would fall together or a name would hide one that a file imports.
"""

import os
import re

WORD = r"[A-Za-z_][\w'′]*(?:[-·][\w'′]+)+"
TOKEN = re.compile(r"(?<![\w'′-])(" + WORD + r")(?![\w'′-])")
DECLARED = re.compile(r"^\s*(?:(?:abbrev|unfoldable|instance)\s+)*(?:pub\s+)?(?:(?:record|data|module)\s+)?(" + WORD + r")(?=[\s:({])(?P<rest>.*)$")
LOCAL = re.compile(r"\b(?:let|module)\s+(" + WORD + r")(?=[\s:=])")
ALIAS = re.compile(r"\bas (" + WORD + r")(?=[,}\s])")
LISTED = re.compile(r"\buse\s+(?P<path>[\w.·]+)\.\{(?P<names>[^}]*)\}")


# Lemmas whose snake case is a word of the library, and definitions beside which a function or field of the same name may stand.
RENAMED = {"bit-and": "bit_of_and", "bit-or": "bit_of_or", "bit-xor": "bit_of_xor"}
BESIDE = {"inked-rows", "last-point"}


def files(kind):
    for folder, dirs, names in os.walk("crates"):
        dirs[:] = sorted(d for d in dirs if d != "out")
        for name in sorted(names):
            if name.endswith(kind):
                yield os.path.join(folder, name)


def parted(line):
    """The text of a line and its comment."""
    at = line.find("--")
    while at > 0 and line[at - 1] not in " \t":
        at = line.find("--", at + 2)
    return (line, "") if at < 0 else (line[:at], line[at:])


def owned():
    """The names that files of specs/ and proofs/ declare, and those that they import from libraries."""
    own, library, ours = set(), set(), set(os.listdir("crates"))
    for path in files(".antt"):
        text = open(path, encoding="utf-8").read()
        for found in LISTED.finditer(text):
            crate = found["path"].split(".")[1] if found["path"].startswith("Rattle.") else ""
            if crate not in ours:
                library |= {n.split(" as ")[-1].strip() for n in found["names"].split(",")}
        for line in text.split("\n"):
            line = parted(line)[0]
            declared = DECLARED.match(line)
            if declared and " : " in line and ": goal." not in line and not line.lstrip().startswith("use "):
                own.add(declared[1])
            own |= set(LOCAL.findall(line)) | set(ALIAS.findall(line))
    for path in files(".rt"):
        for line in open(path, encoding="utf-8"):
            if line.startswith("ghost use "):
                own |= set(ALIAS.findall(line))
    return own - library, library


def snake(name):
    return RENAMED.get(name) or name.replace("-", "_").replace("′", "'")


def clauses(text):
    """Which lines of a source file are clauses, ghost members or ghost imports."""
    depth, marks = 0, []
    for line in text.split("\n"):
        code = line.strip()
        starts = re.match(r"(pub )?(ghost|requires|ensures)\b", code) is not None
        inside = depth > 0 or starts
        marks.append(inside and not code.startswith("//"))
        if inside:
            depth = max(0, depth + line.count("{") - line.count("}"))
    return marks


def turned(text, names, marks=None):
    lines = text.split("\n")
    for i, line in enumerate(lines):
        if marks is not None and not marks[i]:
            continue
        body, comment = parted(line) if marks is None else (line, "")
        lines[i] = TOKEN.sub(lambda m: snake(m[1]) if m[1] in names else m[1], body) + comment
    return "\n".join(lines)


def main():
    own, library = owned()
    plain = set()
    for path in files(".antt"):
        plain |= set(re.findall(r"(?<![\w'-])[A-Za-z_][\w']*(?![\w'-])", open(path, encoding="utf-8").read()))
    clash = sorted(n for n in own - BESIDE if snake(n) in library or snake(n) in plain)
    together = sorted(n for n in own if sum(snake(m) == snake(n) for m in own) > 1)
    if together or clash:
        print("fall together:", ", ".join(together))
        print("stand already:", ", ".join(clash))
        return 2
    changed = 0
    for kind in (".antt", ".rt"):
        for path in files(kind):
            text = open(path, encoding="utf-8").read()
            new = turned(text, own, clauses(text) if kind == ".rt" else None)
            if new != text:
                open(path, "w", encoding="utf-8").write(new)
                changed += 1
    for path in files(".edit"):
        lines = open(path, encoding="utf-8").read().split("\n")
        spec, out = False, []
        for line in lines:
            if line.startswith("file: "):
                spec = line.endswith(".antt")
            out.append(turned(line, own) if spec and line[:5] in ("old: ", "new: ") else line)
        if out != lines:
            open(path, "w", encoding="utf-8").write("\n".join(out))
            changed += 1
    print(f"{len(own)} names in snake case, {changed} files: " + ", ".join(sorted(own)))
    return 0


if __name__ == "__main__":
    raise SystemExit(main())
