#!/usr/bin/env python3
"""Respells the definitions and lemmas of this repository in snake case, as today's Rattle does: wordsIn becomes words_in.

usage: python3 tools/snake_names.py    at the top, once, after the kit's port.py, which has turned some of the names already

A name is respelled where a file of specs/ or proofs/ declares or cites it, in the clauses of src/, in the must-fail edits and,
where it stands in backticks, in the pages. Types, modules and variants, which begin with a capital, and code keep their names.
"""
import os
import re

SNAKE = re.compile(r"(?<![A-Za-z0-9_'])[a-z][a-z0-9']*(?:_[a-z0-9']+)+")
CAMEL = re.compile(r"(?<![A-Za-z0-9_'])[a-z][A-Za-z0-9_']*[A-Z][A-Za-z0-9_']*")


def snake(name):
    return re.sub(r"[A-Z]+", lambda m: "_" + m[0].lower(), name)


def files(top, endings):
    for folder, dirs, names in os.walk(top):
        dirs[:] = sorted(d for d in dirs if d not in ("out", "target", ".git"))
        yield from (os.path.join(folder, n) for n in sorted(names) if n.endswith(endings))


def read(path):
    with open(path, encoding="utf-8") as f:
        return f.read()


def write(path, text):
    with open(path, "w", encoding="utf-8") as f:
        f.write(text)


def main():
    known, snakes = set(), set()
    for path in files("crates", (".antt",)):
        text = read(path)
        known.update(CAMEL.findall(text))
        snakes.update(SNAKE.findall(text))

    def turned(text):
        return CAMEL.sub(lambda m: snake(m[0]) if m[0] in known or snake(m[0]) in snakes else m[0], text)

    count = 0
    for path in files("crates", (".antt", ".rt", ".edit")):
        text = read(path)
        if turned(text) != text:
            write(path, turned(text))
            count += 1
    for path in [p for top in ("docs", "examples", "tests") for p in files(top, (".md",))] + ["README.md"]:
        text = read(path)
        new = re.sub(r"`[^`\n]+`", lambda m: turned(m[0]), text)
        if new != text:
            write(path, new)
            count += 1
    print(f"{len(known)} names, {count} files")


main()
