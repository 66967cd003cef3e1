#!/usr/bin/env python3
"""Respells the repository's own definitions and lemmas in snake case, by the table respelled.tsv beside it.

usage: python3 tools/respell.py     at the top of the repository, once, after port.py of the kit

A row `name` is respelled wherever it stands as a whole name: in the .antt files, in the clauses and `ghost use` lines of the .rt files, in the
must-fail edits, and between backquotes in comments and in the pages. A row `lemma` is a lemma whose name a definition takes over: it is respelled
in the .antt files alone, and not where it stands behind a dot, as a folder or a field does.
"""

import os
import re

HERE = os.path.dirname(os.path.realpath(__file__))
# What may stand in a name, beside letters and digits.
NAME = r"[\w'′\-₀-₉]"


def table():
    names, lemmas = {}, {}
    with open(os.path.join(HERE, "respelled.tsv"), encoding="utf-8") as rows:
        for row in rows:
            kind, old, new = row.rstrip("\n").split("\t")
            (names if kind == "name" else lemmas)[old] = new
    return names, lemmas


def by_table(names, behind_dots):
    start = r"(?<![\w'′\-₀-₉])" if behind_dots else r"(?<![\w'′\-₀-₉.])"
    whole = re.compile(start + NAME + "+")
    return lambda text: whole.sub(lambda m: names.get(m.group(0), m.group(0)), text)


def in_backquotes(turn):
    return lambda text: re.sub(r"`[^`\n]*`", lambda m: turn(m.group(0)), text)


def code_and_comment(line, mark):
    at = line.find(mark)
    return (line, "") if at < 0 else (line[:at], line[at:])


def respelled(path, text, names, lemmas):
    turn, turn_lemmas = by_table(names, True), by_table(lemmas, False)
    if path.endswith(".md"):
        return in_backquotes(turn)(text)
    mark = {".antt": "--", ".rt": "//", ".edit": "#"}[os.path.splitext(path)[1]]
    lines = []
    for line in text.split("\n"):
        code, comment = code_and_comment(line, mark) if not path.endswith(".edit") or line.startswith("#") else (line, "")
        if path.endswith(".antt"):
            code = turn_lemmas(code)
        lines.append(turn(code) + in_backquotes(turn)(comment))
    return "\n".join(lines)


def main():
    names, lemmas = table()
    for folder, folders, files in os.walk("."):
        folders[:] = [f for f in folders if f not in ("out", "target", ".git", "tools", "reference", "bindings")]
        for file in files:
            path = os.path.join(folder, file)
            if not path.endswith((".antt", ".rt", ".edit", ".md")):
                continue
            with open(path, encoding="utf-8") as f:
                old = f.read()
            new = respelled(path, old, names, lemmas)
            if new != old:
                with open(path, "w", encoding="utf-8") as f:
                    f.write(new)


main()
