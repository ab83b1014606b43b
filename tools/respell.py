#!/usr/bin/env python3
"""Brings the repository's own definitions and lemmas to today's spelling: words in snake case, facts and types in camel case, a prime as an apostrophe.

usage: tools/respell.py [--list]     at the top of the repository, once, after the kit's own script; --list only prints the new names

Renamed is what a file of specs/ or proofs/ declares under a name with a dash. Names that the check makes (goals, invariants, measures) keep their dashes,
and so do names of the library. In source files only imports and clauses are read, never text or remarks.
"""

import os
import re
import sys

DECLARED = re.compile(r"^\s*(?:(?:abbrev|unfoldable|pub|record|data)\s+)*([^\s:(){};,«»=|]+)((?:\s*[({][^:]*:[^=]*[)}])*)\s+:(?:\s|$)")
MADE = re.compile(r"^(loop|returns|invariant|decreases|overflow|bounds|slice|nonzero|in)-|-(requires|preserved|init|smaller)(-\d+)?$")
WORD = r"(?<![\w'\u2032.-]){}(?![\w'\u2032-])"


def files(root, ends):
    for folder, dirs, names in os.walk(os.path.join(root, "crates")):
        dirs[:] = sorted(d for d in dirs if d != "out")
        for n in sorted(names):
            if n.endswith(ends):
                yield os.path.join(folder, n)


def read(path):
    with open(path, encoding="utf-8") as f:
        return f.read()


def goals(text):
    """The goals that a proof file answers: the check names these."""
    return set(re.findall(r"^(?:abbrev )?pub (\S+) : (?:goal\.|\w+\.Goals\.|\w+\.Given\.)\1\b", text, re.M))


def declared(root):
    out = set()
    for p in files(root, ".antt"):
        text = read(p)
        made = goals(text)
        for line in text.split("\n"):
            m = DECLARED.match(line)
            if m and re.search(r"[-\u2032]", m.group(1)) and m.group(1) not in made and not MADE.search(m.group(1)):
                out.add(m.group(1))
    return out


def respelled(name):
    parts = name.replace("\u2032", "'").split("-")
    if name[0].isupper():
        return "".join(p[:1].upper() + p[1:] for p in parts)
    return "_".join(parts)


def turn_antt(text, pattern, names):
    return pattern.sub(lambda m: names[m.group(0)], text)


SOURCE = re.compile(r'//[^\n]*|"(?:\\.|[^"\\])*"|\'(?:\\.|[^\'\\])\'')


def turn_source(text, pattern, names):
    """Text and remarks stay as they are."""
    out, at = [], 0
    for m in SOURCE.finditer(text):
        out += [turn_antt(text[at:m.start()], pattern, names), m.group(0)]
        at = m.end()
    return "".join(out + [turn_antt(text[at:], pattern, names)])


def main():
    root = os.getcwd()
    names = {n: respelled(n) for n in declared(root)}
    seen = {}
    for old, new in sorted(names.items()):
        if new in seen:
            print(f"together: {seen[new]} and {old} are both {new}")
        seen[new] = old
    taken = {}
    for p in files(root, (".antt", ".rt")):
        for w in set(re.findall(r"[\w']+", re.sub(r"//[^\n]*|--[^\n]*", "", read(p)))):
            if w in seen:
                taken.setdefault(w, []).append(os.path.relpath(p, root))
    for w in sorted(taken):
        print(f"taken: {w} ({seen[w]}) stands in", *taken[w][:6])
    if "--list" in sys.argv:
        for old in sorted(names):
            print(old, names[old])
        return
    one = re.compile(WORD.format("(?:" + "|".join(re.escape(n) for n in sorted(names, key=len, reverse=True)) + ")").replace(".-]", "-]", 1))
    for p in files(root, (".antt", ".rt", ".edit")):
        text = read(p)
        new = turn_antt(text, one, names) if not p.endswith(".rt") else turn_source(text, one, names)
        if new != text:
            with open(p, "w", encoding="utf-8") as f:
                f.write(new)


main()
