#!/usr/bin/env python3
"""Counts places of six lines of src/ that have the same shape under other names.

    tools/same_shape.py COMMIT

A line's names become x and its numbers 0. Comments, imports and lone braces do not count. Prints how many places share
their shape with another, and the files that have most of them.
"""
import collections
import re
import subprocess
import sys

LINES = 6


def git(*words):
    return subprocess.check_output(["git", *words], text=True)


def shapes(commit, path):
    """The lines that count, each with its number and its shape."""
    for number, line in enumerate(git("show", f"{commit}:{path}").split("\n"), 1):
        line = line.strip()
        if line.strip("{}") and not line.startswith(("//", "use ", "ghost use")):
            yield number, re.sub(r"[A-Za-z_][A-Za-z_0-9]*", "x", re.sub(r"\d+", "0", line))


def main(commit):
    places = collections.defaultdict(list)
    for path in git("ls-tree", "-r", "--name-only", commit, "crates").split():
        if path.endswith(".rt"):
            lines = list(shapes(commit, path))
            for start in range(len(lines) - LINES + 1):
                window = lines[start:start + LINES]
                places[tuple(shape for _, shape in window)].append((path, window[0][0]))
    shared = {place for found in places.values() if len(found) > 1 for place in found}
    print(len(shared), "places")
    for path, count in collections.Counter(path for path, _ in shared).most_common(12):
        print(f"{count:4}  {path}")


main(sys.argv[1])
