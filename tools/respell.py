#!/usr/bin/env python3
"""Respells this repository's own definitions and lemmas as today's Rattle spells words: snake case in place of camel case.

usage: python3 tools/respell.py [FOLDER]     in the repository, or on the checkout in FOLDER, once, after port.py

port.py respells only some of the repository's own names. What it leaves are words as `windowOf`, that begin with a small letter and have a
capital inside: those of specs/ and proofs/, and the places in contracts, must-fail edits and pages that cite them. Functions of src/, names of
C, strings, inputs and outputs keep their names. It says which names would fall together with another, and stops before it writes anything
if one does. It was run once; it is kept so that the step can be done again and read.
"""

import os
import re
import sys

WORD = re.compile(r"(?<![A-Za-z0-9_'◌\\])[a-z][a-z0-9]*[A-Z][A-Za-z0-9_']*")
ANY = re.compile(r"(?<![A-Za-z0-9_'◌])[A-Za-z][A-Za-z0-9_']*")
STRING = re.compile(r'"(?:\\.|[^"\\])*"')

# A lemma that would fall together with the definition that it is about: `readyOf` is a definition, `ready_of` was a lemma beside it.
APART = {"ready_of": "ready_gives"}


def snake(word):
    word = re.sub(r"(?<=[a-z0-9])([A-Z])", r"_\1", word)
    return re.sub(r"(?<=[A-Z])([A-Z][a-z])", r"_\1", word).lower()


def files(root):
    for folder, dirs, names in os.walk(root):
        dirs[:] = sorted(d for d in dirs if d not in ("out", ".git", "target"))
        for name in sorted(names):
            yield os.path.join(folder, name)


def read(path):
    with open(path, encoding="utf-8") as f:
        return f.read()


def code(text):
    """The text of an .antt file without its comments."""
    return re.sub(r"--[^\n]*", "", text)


def outside_strings(text, turn):
    out, at = [], 0
    for m in STRING.finditer(text):
        out += [turn(text[at : m.start()]), m.group()]
        at = m.end()
    return "".join(out) + turn(text[at:])


def main(root):
    antt = [p for p in files(os.path.join(root, "crates")) if p.endswith(".antt")]
    apart = {p: re.sub(r"(?<![\w'-])(%s)(?![\w'-])" % "|".join(APART), lambda m: APART[m.group()], read(p)) for p in antt}
    words = set()
    for text in apart.values():
        words |= set(WORD.findall(code(text)))
    names = {w: snake(w) for w in words}
    bad = [f"{a} and {b} would both be {names[a]}" for a in names for b in names if a < b and names[a] == names[b]]
    for path, text in apart.items():
        bare = code(re.sub(r"(?m)^use .*\.proofs\.\S+( as \w+)?$", "", text))  # a function's folder has the function's own name
        used = set(ANY.findall(re.sub(r"\.[a-z_0-9]+", "", bare)))
        bad += [f"{path}: {w} would fall together with {names[w]}" for w in set(WORD.findall(bare)) if names[w] in used]
    if bad:
        print("\n".join(sorted(bad)))
        return 1

    def turn(text):
        return WORD.sub(lambda m: names.get(m.group(), m.group()), text)

    changed = 0
    for path in files(root):
        if path.endswith(".antt"):
            new = turn(apart[path])
        elif path.endswith(".rt"):
            new = "\n".join(outside_strings(line, turn) for line in read(path).split("\n"))
        elif path.endswith(".edit"):
            new = turn(read(path))
        elif path.endswith(".md"):
            new = re.sub(r"`[^`\n]+`", lambda m: turn(m.group()), read(path))
        else:
            continue
        if new != read(path):
            changed += 1
            with open(path, "w", encoding="utf-8") as f:
                f.write(new)
    print(f"respell: {len(names)} words, {changed} files")
    return 0


if __name__ == "__main__":
    raise SystemExit(main(sys.argv[1] if len(sys.argv) > 1 else "."))
