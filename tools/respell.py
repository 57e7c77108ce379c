#!/usr/bin/env python3
"""Respells the definitions and lemmas of this repository: words in snake case, types in upper camel case.

usage: python3 tools/respell.py [ROOT]   at the top of the repository, or of the copy ROOT, once, after the kit's port.py

It takes every name with a dash that a file of specs/ or proofs/ declares, but for the goals that Rattle names, and turns it
in every .antt and .rt file, in code alone: comments, quoted texts and the names of functions stay. Where two of these names
would fall together it writes nothing, and it names each new spelling that stands in a file already.
"""
import glob
import os
import re
import sys

LETTER = r"[^\s(){}\[\];,.\"λ→⌜⌝]"
NAME = re.compile(LETTER + "+")
DECLARED = re.compile(r"\s*(?:(?:pub|abbrev|unfoldable|record|data)\s+)*(" + LETTER + r"+)((?:\s+[({].*)|)\s*:(?!\w)")
LOCAL = re.compile(r"\blet (" + LETTER + r"+)\s*[:=]")
# lemmas that keep their dash: one begins with the fact that it is about, one would have the name of a function of std
KEPT = {"All-map", "bit-xor"}


def sources(root, ending):
    return sorted(glob.glob(os.path.join(root, "crates/*/*/**/*" + ending), recursive=True))


def declared(text):
    """The names with a dash that a file declares."""
    for line in text.splitlines():
        if line.lstrip().startswith("--") or "goal." in line:
            continue
        head = DECLARED.match(line)
        names = [head.group(1)] if head else []
        for name in names + LOCAL.findall(line):
            if "-" in name and re.search(r"\w", name):
                yield name


def respelled(name):
    if name in KEPT:
        return name
    words = name.split("-")
    if name[0].isupper():
        return "".join(w[0].upper() + w[1:] for w in words)
    return re.sub("getd", "get_or", "_".join(words).lower())


def turned(text, spelling, comment):
    """The text with each name in its new spelling; comments and quoted texts as they were."""
    parts = re.split(r'("(?:[^"\\\n]|\\.)*"|' + comment + r"[^\n]*)", text)
    for i in range(0, len(parts), 2):
        parts[i] = NAME.sub(lambda m: spelling.get(m.group(0), m.group(0)), parts[i])
    return "".join(parts)


def main():
    root = sys.argv[1] if len(sys.argv) > 1 else "."
    antt = {p: open(p, encoding="utf-8").read() for p in sources(root, ".antt")}
    code = {p: open(p, encoding="utf-8").read() for p in sources(root, ".rt")}
    spelling = {}
    for text in antt.values():
        for name in declared(text):
            spelling[name] = respelled(name)
    taken = {}
    for old, new in spelling.items():
        if taken.setdefault(new, old) != old:
            sys.exit(f"two names fall together: {old} and {taken[new]}")
    seen = set()
    for text in antt.values():
        seen |= set(NAME.findall(text))
    for new in sorted(n for n in taken if n in seen and taken[n] != n):
        print("stands already:", taken[new], "->", new)
    for path, text in antt.items():
        fresh = turned(text, spelling, "--")
        if fresh != text:
            open(path, "w", encoding="utf-8").write(fresh)
    for path, text in code.items():
        fresh = turned(text, spelling, "//")
        if fresh != text:
            open(path, "w", encoding="utf-8").write(fresh)
    print(len(spelling), "names respelled")


main()
