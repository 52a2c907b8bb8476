#!/usr/bin/env python3
"""Spells this repository's definitions and lemmas as today's Rattle does: types in camel case, all else in snake case.

usage: python3 tools/respell.py [ROOT]     after the kit's port.py, once; ROOT is the repository, by default the current folder

The names and their new spelling are the lines of respelled-names.txt. Names that Rattle makes (`c.put-answer` in an answer)
keep their dashes, and so do strings and comments' words that are no name of the list.
The library's `All` of today goes by index; the older one is its `AllByRecursion`, which is written out wherever it is meant.
"""

import os
import re
import sys

HERE = os.path.dirname(os.path.realpath(__file__))
ROOT = sys.argv[1] if len(sys.argv) > 1 else "."

with open(os.path.join(HERE, "respelled-names.txt"), encoding="utf-8") as f:
    NAMES = dict(line.split() for line in f)

# fields of records: behind a dot in an answer they are still names of ours
with open(os.path.join(HERE, "respelled-fields.txt"), encoding="utf-8") as f:
    FIELDS = set(f.read().split())

TOKEN = re.compile(r"(\.?)(?<![\w'\-])([A-Za-z][\w']*(?:-[\w'*]+)+)(?![\w'\-])(?! machine)")
ALL = re.compile(r"(?<![\w'.\-])All(?![\w'\-])")
STRING = re.compile(r'b?"(?:[^"\\\n]|\\.)*"')


def respelled(text, made):
    def one(m):
        dot, name = m.group(1), m.group(2)
        if name not in NAMES or (dot and made and name not in FIELDS):
            return m.group(0)
        return dot + NAMES[name]

    return TOKEN.sub(one, text)


def recursive_all(text):
    """`AllByRecursion` by its own name, in a file that brought it in as `All`."""
    if "AllByRecursion as All" not in text:
        return text
    text = text.replace("AllByRecursion as All", "AllByRecursion")
    lines = text.splitlines(True)
    return "".join(line if line.lstrip().startswith(("--", "//", "use ", "ghost use ")) else ALL.sub("AllByRecursion", line) for line in lines)


def outside_strings(text):
    parts, at = [], 0
    for m in STRING.finditer(text):
        parts += [respelled(text[at : m.start()], False), m.group(0)]
        at = m.end()
    return "".join(parts) + respelled(text[at:], False)


def main():
    changed = 0
    for folder, dirs, names in os.walk(os.path.join(ROOT, "crates")):
        dirs[:] = [d for d in dirs if d not in ("out", "data")]
        for name in names:
            path = os.path.join(folder, name)
            parts = os.path.relpath(path, os.path.join(ROOT, "crates")).split(os.sep)
            if name.endswith(".antt"):
                with open(path, encoding="utf-8") as f:
                    old = f.read()
                made = parts[1] == "proofs" and len(parts) > 3
                new = recursive_all(respelled(old, made))
            elif name.endswith(".rt"):
                with open(path, encoding="utf-8") as f:
                    old = f.read()
                new = recursive_all(outside_strings(old))
            else:
                continue
            if new != old:
                with open(path, "w", encoding="utf-8") as f:
                    f.write(new)
                changed += 1
    print(f"respell: {changed} files")


main()
