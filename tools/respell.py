#!/usr/bin/env python3
"""Respells the repository's own definitions and lemmas: words in snake case, types in camel case.

usage: python3 tools/respell.py     at the top of a tree that /opt/rattle/port/port.py has just turned, once

It replaces whole names by the table tools/respell.tsv (old, tab, new) in the .antt, .rt and .edit files below crates/,
in code and comments alike. A name inside a longer one, as in a goal's name that Rattle makes, stays as it is.
"""

import os
import re

TOP = os.path.join(os.path.dirname(os.path.realpath(__file__)), "..")
PART = r"[\w'\-]"


def table():
    with open(os.path.join(TOP, "tools", "respell.tsv"), encoding="utf-8") as rows:
        return dict(row.rstrip("\n").split("\t") for row in rows)


def files():
    for folder, inner, names in os.walk(os.path.join(TOP, "crates")):
        inner[:] = [name for name in inner if name != "out"]
        for name in names:
            if name.endswith((".antt", ".rt", ".edit", ".antt.txt")):
                yield os.path.join(folder, name)


def main():
    names = table()
    one = re.compile(f"(?<!{PART})(?:" + "|".join(re.escape(name) for name in sorted(names, key=len, reverse=True)) + f")(?!{PART})")
    for path in files():
        with open(path, encoding="utf-8") as file:
            old = file.read()
        new = one.sub(lambda found: names[found[0]], old)
        if new != old:
            with open(path, "w", encoding="utf-8") as file:
                file.write(new)


main()
