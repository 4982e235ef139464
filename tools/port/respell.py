#!/usr/bin/env python3
"""Respells this repository's own definitions and lemmas: words in snake case, as names.txt beside this script lists them.

usage: python3 tools/port/respell.py [TOP]     TOP: the top of a checkout, or left out this one's

Run it once, right after the toolchain's own script for older repositories. It turns whole words of .antt files, of .rt files outside
strings, of must-fail edits, and of code spans in README.md and docs/. A name with a dash stays behind a dot, where it is a step of a proof.
"""

import os
import re
import sys

HERE = os.path.dirname(os.path.realpath(__file__))
WORD = re.compile(r"[^\s(){}.;,@\"«»\x60]+")
STRING = re.compile(r'b?"(?:[^"\\]|\\.)*"', re.S)
SPAN = re.compile(r"\x60[^\x60\n]+\x60")


def table():
    with open(os.path.join(HERE, "names.txt"), encoding="utf-8") as f:
        return dict(line.split() for line in f if line.strip())


NAMES = table()


def turned(text):
    def word(m):
        old = m[0]
        new = NAMES.get(old)
        if new is None or ("-" in old and m.start() and text[m.start() - 1] == "."):
            return old
        return new

    return WORD.sub(word, text)


def outside(pattern, text, turn):
    out, at = [], 0
    for m in pattern.finditer(text):
        out += [turn(text[at : m.start()]), m[0]]
        at = m.end()
    return "".join(out + [turn(text[at:])])


def camel(text):
    return re.sub(r"[A-Za-z_]\w*", lambda m: NAMES.get(m[0], m[0]), text)


def respelled(path, text):
    if path.endswith(".antt"):
        return turned(text)
    if path.endswith(".rt"):
        return outside(STRING, text, lambda t: camel(turned(t)))
    if path.endswith(".edit"):
        return camel(text)
    return SPAN.sub(lambda m: camel(m[0]), text)


def main(top):
    for folder in ("crates", "docs"):
        for d, dirs, files in os.walk(os.path.join(top, folder)):
            dirs[:] = sorted(x for x in dirs if x != "out")
            for f in sorted(files):
                if f.endswith((".antt", ".rt", ".edit", ".md")):
                    write(os.path.join(d, f))
    write(os.path.join(top, "README.md"))


def write(path):
    with open(path, encoding="utf-8") as f:
        old = f.read()
    new = respelled(path, old)
    if new != old:
        with open(path, "w", encoding="utf-8") as f:
            f.write(new)


if __name__ == "__main__":
    main(os.path.abspath(sys.argv[1]) if len(sys.argv) > 1 else os.path.dirname(os.path.dirname(HERE)))
