#!/usr/bin/env python3
"""Respells this repository's own definitions and lemmas by tools/respelled.tsv, a row for each: old, tab, new.

usage: tools/respell.py [FOLDER]

Words of code turn in .antt files, and in the .rt files, whose Rust has no word of the table. In comments, and in
Markdown, words between backquotes turn. It is run once, after the kit's port.py.
"""
import glob
import os
import re
import sys

HERE = os.path.dirname(os.path.abspath(__file__))
ROOT = sys.argv[1] if len(sys.argv) > 1 else os.path.join(HERE, "..")
WORD = re.compile(r'[^\s(){}.;,@"«»\[\]|`]+')
COMMENT = {".antt": re.compile(r'(?m)(?<![^\s(){}.;,@"])--[^\n]*'), ".rt": re.compile(r"(?m)//[^\n]*|b?\"(?:\\.|[^\"\\\n])*\"")}
SPAN = re.compile(r"`[^`\n]*`")

# Lemmas that would now have the name of a definition: the name, and the files that have it.
LEMMAS = {
    "half_count": ["origin/proofs/Laws/Sources.antt"],
    "count_at": ["origin/proofs/Laws/Sources.antt"],
    "is_digit": ["text/proofs/Laws/Numbers.antt"],
    "row_from": ["clausal/proofs/Rows.antt", "totals/proofs/Laws/Columns.antt"],
    "sum_below": ["sets/proofs/Laws/Signs.antt"],
    "firsts_after": ["tidied/proofs/Sets.antt"],
    "all_among": ["tidied/proofs/Sets.antt"],
    "kept_from": ["tidied/proofs/Orders.antt"],
}

with open(os.path.join(HERE, "respelled.tsv"), encoding="utf-8") as rows:
    TABLE = dict(row.rstrip("\n").split("\t") for row in rows)


def turned(code):
    return WORD.sub(lambda m: TABLE.get(m[0], m[0]), code)


def spans(prose):
    prose = SPAN.sub(lambda m: turned(m[0]), prose)
    return WORD.sub(lambda m: TABLE.get(m[0], m[0]) if re.search("[a-z0-9][A-Z]", m[0]) else m[0], prose)


def respelled(text, kind):
    if kind == ".md":
        return SPAN.sub(lambda m: turned(m[0]), text)
    out, at = [], 0
    for comment in COMMENT[kind].finditer(text):
        out += [turned(text[at : comment.start()]), spans(comment[0])]
        at = comment.end()
    return "".join(out) + turned(text[at:])


def main():
    files = [f for kind in ("antt", "rt") for f in glob.glob(f"{ROOT}/crates/**/*.{kind}", recursive=True)]
    files += glob.glob(f"{ROOT}/docs/*.md") + [f"{ROOT}/README.md"]
    lemmas = {f"{ROOT}/crates/{f}": [n for n, where in LEMMAS.items() if f in where] for where in LEMMAS.values() for f in where}
    for path in files:
        with open(path, encoding="utf-8") as f:
            old = f.read()
        text = old
        for name in lemmas.get(path, []):
            text = re.sub(rf"(?<![\w.-]){name}(?![\w.-])", f"{name}_lem", text)
        text = respelled(text, os.path.splitext(path)[1])
        if text != old:
            with open(path, "w", encoding="utf-8") as f:
                f.write(text)


main()
