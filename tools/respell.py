#!/usr/bin/env python3
"""Respells the words of specs/ and proofs/ (definitions, lemmas, fields of records, constructors) as snake case.

usage: python3 tools/respell.py            in the repository: rewrites crates/, README.md and docs/ in place
       python3 tools/respell.py --list     prints each word with its new spelling, and the files where the new one already stood

A word is respelled wherever it stands whole. Names of the code are in Rust's spelling already and have no such word;
names that the toolchain makes, as returns-in-NoPack, keep theirs.
"""

import os
import re
import sys

WORD = re.compile(r"[A-Za-z_][A-Za-z0-9_'-]*")
CAMEL = re.compile(r"[a-z][A-Za-z0-9]*[a-z0-9][A-Z]")
STRING = re.compile(r"""(b?"(?:[^"\\]|\\.)*")""", re.DOTALL)
MADE = re.compile(r"(?:returns-)?in-")
# a word whose plain respelling is the name of something else in its place
OTHERWISE = {
    "getD-tabulated": "get_or-tabulated",
    "getD_part": "get_or-part",
}


def respelled(word):
    if word in OTHERWISE:
        return OTHERWISE[word]
    if MADE.match(word) or not CAMEL.match(word):
        return word
    return re.sub(r"(?<=[a-z0-9])[A-Z]", lambda m: "_" + m.group(0).lower(), word)


def turned(text):
    """What stands in a string is no word of the specs; an escape as \\x03 with a capital behind it only looks like one."""
    parts = STRING.split(text)
    return "".join(part if i % 2 else WORD.sub(lambda m: respelled(m.group(0)), part) for i, part in enumerate(parts))


def files():
    for folder, dirs, names in os.walk("crates"):
        dirs[:] = sorted(d for d in dirs if d != "out")
        for name in sorted(names):
            if name.endswith((".rt", ".antt")):
                yield os.path.join(folder, name)


def pages():
    """The pages, but for the one that tells the old spellings."""
    for name in ["README.md"] + sorted(os.path.join("docs", n) for n in os.listdir("docs") if n.endswith(".md") and n != "PORT.md"):
        yield name


def in_ticks(text):
    """A page: only what stands between backticks."""
    return re.sub(r"`[^`\n]*`", lambda m: turned(m.group(0)), text)


def main():
    if sys.argv[1:] == ["--list"]:
        words, stood = {}, {}
        for path in files():
            with open(path, encoding="utf-8") as f:
                found = set(WORD.findall(" ".join(STRING.split(f.read())[::2])))
            for word in found:
                new = respelled(word)
                if new != word:
                    words.setdefault(word, new)
                stood.setdefault(word, set()).add(path)
        for word, new in sorted(words.items()):
            print(word, new, *sorted(stood.get(new, ())))
        return
    for path, turn in [(p, turned) for p in files()] + [(p, in_ticks) for p in pages()]:
        with open(path, encoding="utf-8") as f:
            text = f.read()
        new = turn(text)
        if new != text:
            with open(path, "w", encoding="utf-8") as f:
                f.write(new)


main()
