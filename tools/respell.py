#!/usr/bin/env python3
"""Respells the repository's own definitions and lemmas as today's Rattle spells them, by the table tools/respell.tsv.

usage: python3 tools/respell.py [FOLDER]      at the top of the repository (or for the checkout FOLDER), once, after the kit's port.py

It turns whole names alone: in .antt files the code and the comments, in .rt files and must-fail edits all but quoted text.
A name behind a dot turns only where it is a field or a constructor of ours (the table's third column), since the checker makes names of its own there.
"""
import os
import re
import sys

HERE = os.path.dirname(os.path.realpath(__file__))
WORD = re.compile(r"[^\s(){}\[\].;,:@\"«»`]+")
QUIET = re.compile(r'"(?:[^"\\\n]|\\.)*"')


def table():
    rows = {}
    with open(os.path.join(HERE, "respell.tsv"), encoding="utf-8") as f:
        for line in f:
            old, new, *kind = line.rstrip("\n").split("\t")
            rows[old] = (new, "field" in kind)
    return rows


def turned(text, rows):
    def word(m):
        row = rows.get(m.group(0))
        if row is None:
            return m.group(0)
        if m.start() and text_now[m.start() - 1] == "." and not row[1]:
            return m.group(0)
        return row[0]

    parts, at = [], 0
    for q in QUIET.finditer(text):
        text_now = text[at : q.start()]
        parts += [WORD.sub(word, text_now), q.group(0)]
        at = q.end()
    text_now = text[at:]
    parts.append(WORD.sub(word, text_now))
    return "".join(parts)


def main(argv):
    root = argv[0] if argv else "."
    rows, n = table(), 0
    for folder, dirs, files in os.walk(os.path.join(root, "crates")):
        dirs[:] = sorted(d for d in dirs if d not in ("out", ".git"))
        for name in sorted(files):
            if name.endswith((".antt", ".rt", ".edit")):
                path = os.path.join(folder, name)
                with open(path, encoding="utf-8") as f:
                    text = f.read()
                new = turned(text, rows)
                if new != text:
                    n += 1
                    with open(path, "w", encoding="utf-8") as f:
                        f.write(new)
    print(f"respell: {len(rows)} names, {n} files")


if __name__ == "__main__":
    main(sys.argv[1:])
