#!/usr/bin/env python3
"""Lists the places in crates/*/src that docs/DESIGN-PASS.md counts, by point.

    python3 tools/places.py [COMMIT]     (without COMMIT: the files as they stand)

Each place is a line `file:line: text`; under point 5 a line is a clause, or a group of
parameters, with how many functions have it. What is listed is judged by reading.
"""
import collections
import itertools
import re
import subprocess
import sys

COMMIT = sys.argv[1] if len(sys.argv) > 1 else None


def git(*args):
    return subprocess.run(["git", *args], capture_output=True, text=True, check=True).stdout


def sources():
    names = git("ls-tree", "-r", "--name-only", COMMIT, "crates") if COMMIT else git("ls-files", "crates")
    for name in names.split("\n"):
        if re.fullmatch(r"crates/\w+/src/.*\.rt", name):
            yield name, git("show", f"{COMMIT}:{name}") if COMMIT else open(name).read()


FILES = list(sources())


def lines(title, pattern, but=None):
    found = []
    for name, text in FILES:
        for number, line in enumerate(text.split("\n"), 1):
            code = line.split("//")[0]
            if re.search(pattern, code) and not re.match(r"\s*(requires|ensures|ghost)\b", code):
                if not (but and re.search(but, code)):
                    found.append(f"{name}:{number}: {line.strip()}")
    print(f"== {title}: {len(found)}")
    print("\n".join(found))


def functions():
    for name, text in FILES:
        for m in re.finditer(r"fn (\w+)(?:<[^(]*>)?\(([^)]*)\)([^{]*)", text, re.S):
            yield name, m.group(1), " ".join(m.group(2).split()), " ".join(m.group(3).split())


def shapes():
    """Functions of one body but for names and numbers, the longer ones."""
    bodies = collections.defaultdict(list)
    for name, text in FILES:
        for m in re.finditer(r"^( *)(?:pub(?:\(\w+\))? )?(?:final )?fn (\w+).*?\n\1\{\n(.*?)\n\1\}", text, re.S | re.M):
            words = re.findall(r"\w+|[^\w\s]", re.sub(r"//.*", "", m.group(3)))
            shape = tuple("x" if re.fullmatch(r"\w+", w) and w not in ("match", "if", "let", "for", "return", "else") else w for w in words)
            if len(shape) > 8:
                bodies[shape].append(f"{name} {m.group(2)}")
    groups = [g for g in bodies.values() if len(g) > 1]
    print(f"== 2 functions of one shape (groups): {len(groups)}")
    for group in groups:
        print(" | ".join(group))


def facts():
    clauses = collections.Counter()
    for _, text in FILES:
        for m in re.finditer(r"^\s*(?:requires|ensures)(?: \w+)? \{ (.*) \}\s*$", text, re.M):
            clauses[m.group(1)] += 1
    often = [(n, c) for c, n in clauses.most_common() if n >= 3]
    print(f"== 5 clauses that stand three times or more: {len(often)} clauses, {sum(n for n, _ in often)} places")
    for n, c in often:
        print(n, c)
    premises = collections.Counter()
    for _, text in FILES:
        for m in re.finditer(r"^\s*(?:ensures)(?: \w+)? \{ (?:\([^)]*\) → )*([^→]*?) → .*\}\s*$", text, re.M):
            premises[re.sub(r"\b(self|map|items|key|old|now)\b[.\w]*", "_", m.group(1))] += 1
    often = [(n, c) for c, n in premises.most_common() if n >= 3]
    print(f"== 5 premises that stand three times or more: {len(often)} premises, {sum(n for n, _ in often)} places")
    for n, c in often:
        print(n, c)


def parameters():
    groups = collections.Counter()
    for _, _, text, _ in functions():
        names = sorted({p.split(":")[0].replace("mut ", "").strip() for p in re.split(r",(?![^<(]*[>)])", text) if ":" in p})
        for pair in itertools.combinations(names, 2):
            groups[pair] += 1
    often = [(n, g) for g, n in groups.most_common() if n >= 4]
    print(f"== 5 pairs of parameters in four functions or more: {len(often)}")
    for n, g in often:
        print(n, ", ".join(g))


lines("1 enums", r"^\s*(pub(\(\w+\))? )?enum ")
lines("1 parameters and fields that are flags", r"\b\w+: bool\b|\(bool\b|, bool\)")
lines("1 functions that answer a flag", r"-> bool\b")
lines("1 numbers for kinds", r"fn number\b|\bband: (u8|\d)|new\(number")
shapes()
lines("3 loops", r"\b(for .* in|while|loop)\b.*\{$")
lines("3 indices moved or read by hand", r"[-+]= 1\b|\b(items|expected|list)\[(?!\.\.)[^]]*\]")
lines("4 functions that compare, order, copy or convert", r"fn (equals|compare|same|eq|cmp|copy|number|from_\w+|new\((value|number|bytes|year))\b|fn from_date")
lines("4 printing, and equality by a trait of the repository", r"impl.*\bDisplay for|impl.*\bValue for|trait Value")
facts()
parameters()
lines("6 lists, and indices into them", r"Vec<|\[\w+; \d+\]|: usize\b")
lines("7 flags that pick a step", r"\bif (start|first|kept|connected|b2_start)\b")
