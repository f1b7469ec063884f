#!/usr/bin/env python3
"""Brings this repository's own names to the spelling of today's Rattle: words in snake case.

usage: python3 tools/port/respell.py [FOLDER]

Run it once, right after the kit's port.py, at the top of a checkout (FOLDER, or here). It goes by tokens: respelled.tsv beside it has
the old name and the new one, and a name followed by @CRATE is turned in that crate alone. Strings are left, and so are must-fail edits.
"""

import os
import re
import sys

HERE = os.path.dirname(os.path.realpath(__file__))
TOKEN = re.compile(r"\"(?:[^\"\\\n]|\\.)*\"|[A-Za-z_][A-Za-z0-9_'₀-₉]*(?:-[A-Za-z0-9_'₀-₉]+)*")


def table():
    with open(os.path.join(HERE, "respelled.tsv"), encoding="utf-8") as f:
        return dict(line.rstrip("\n").split("\t") for line in f)


def files(top):
    for folder, dirs, names in os.walk(os.path.join(top, "crates")):
        dirs[:] = sorted(d for d in dirs if d != "out")
        for name in sorted(names):
            if name.endswith((".rt", ".antt")):
                yield os.path.join(folder, name)


def turned(text, names, crate):
    def one(m):
        word = m[0]
        return names.get(f"{word}@{crate}") or names.get(word, word)

    return TOKEN.sub(one, text)


def main(argv):
    top = argv[0] if argv else "."
    names = table()
    for path in files(top):
        crate = os.path.relpath(path, os.path.join(top, "crates")).split(os.sep)[0]
        with open(path, encoding="utf-8") as f:
            old = f.read()
        new = turned(old, names, crate)
        if new != old:
            with open(path, "w", encoding="utf-8") as f:
                f.write(new)


if __name__ == "__main__":
    main(sys.argv[1:])
