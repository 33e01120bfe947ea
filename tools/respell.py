#!/usr/bin/env python3
"""Spells the repository's own definitions, lemmas, constructors and fields of specs/ and proofs/ in snake case, by respell.tsv beside this file.

usage: respell.py FOLDER..

Each row of the table is an old name, a tab, the new one. In .antt files each whole word turns, in code and in a comment's code spans; a name that Rattle makes
(behind `c.`, `tie.` or `.before.` in a function's proof) stays. In .rt files the clauses, the `ghost use` items and a comment's code spans turn. Strings stay.
Run it once: some old names are spelled like other new ones.
"""
import os
import re
import sys

HERE = os.path.dirname(os.path.realpath(__file__))
WORD = re.compile(r'[^\s(){}.;,@"«»]+')
MADE = re.compile(r"(?:(?<![^\s(){}.;,@\"«»])(?:c|tie|goal)|before|initial|args|Goals|Given|Tie)\.$")


def table():
    with open(os.path.join(HERE, "respell.tsv"), encoding="utf-8") as f:
        return dict(line.rstrip("\n").split("\t") for line in f if line.strip() and not line.startswith("#"))


def words(text, names, made):
    out, at = [], 0
    for m in WORD.finditer(text):
        new = names.get(m[0])
        if new is None or (made and MADE.search(text[max(0, m.start() - 12):m.start()]) and m[0] not in made):
            continue
        out.append(text[at:m.start()])
        out.append(new)
        at = m.end()
    out.append(text[at:])
    return "".join(out)


def spans(comment, names):
    return re.sub(r"`[^`\n]+`", lambda m: "`" + words(m[0][1:-1], names, None) + "`", comment)


def antt(text, names, made):
    out = []
    for line in text.split("\n"):
        m = re.search(r"(?<![^\s(){}.;,@\"«»])--( |$)", line)
        code, comment = (line[:m.start()], line[m.start():]) if m else (line, "")
        out.append(words(code, names, made) + spans(comment, names))
    return "\n".join(out)


def rt(text, names):
    own = {a: b for a, b in names.items() if "-" in a or re.search("[a-z][A-Z]", a)}
    out = []
    for line in text.split("\n"):
        m = re.search(r"//", line)
        code, comment = (line[:m.start()], line[m.start():]) if m else (line, "")
        parts = re.split(r'("(?:\\.|[^"\\])*")', code)
        out.append("".join(p if i % 2 else words(p, own, None) for i, p in enumerate(parts)) + spans(comment, own))
    return "\n".join(out)


def main():
    names = table()
    for root in sys.argv[1:]:
        for folder, dirs, files in os.walk(os.path.join(root, "crates")):
            dirs[:] = sorted(d for d in dirs if d != "out")
            for f in sorted(files):
                path = os.path.join(folder, f)
                if not f.endswith((".antt", ".rt")):
                    continue
                with open(path, encoding="utf-8") as h:
                    old = h.read()
                in_function = os.path.relpath(path, root).count(os.sep) > 3 and f.endswith(".antt")
                new = rt(old, names) if f.endswith(".rt") else antt(old, names, {"-"} if in_function else None)
                if new != old:
                    with open(path, "w", encoding="utf-8") as h:
                        h.write(new)


main()
