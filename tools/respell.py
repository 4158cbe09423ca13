#!/usr/bin/env python3
"""Turns the repository's own definitions and lemmas to today's spelling, by the rows of spelling.tsv beside this script.

usage: python3 tools/respell.py      at the top of the repository, once, after port.py

It stops where docs/PORT.md is, which tells that this is done: what was mended by hand since would turn again.

A row has the old name, a tab and the new one; a third part names the one file in which the row holds.
In .antt files whole words turn, and lowerCamelCase ones in comments too. In .rt files only rows in lowerCamelCase turn, since
Rust has no such name. In must-fail edits the lines of a .antt file turn, and the words in lowerCamelCase of a .rt file.
In README.md and docs/ the words in backticks turn. Strings, file names and names with no row stay.
"""
import os
import re
import sys

WORD = re.compile(r'[^\s(){}.;,@"«»]+')
CAMEL = re.compile(r"[a-z][A-Za-z0-9]*[A-Z][A-Za-z0-9]*")
HERE = os.path.dirname(os.path.realpath(__file__))


def rows():
    every, one = {}, {}
    with open(os.path.join(HERE, "spelling.tsv"), encoding="utf-8") as f:
        for line in f:
            old, new, *where = line.rstrip("\n").split("\t")
            if where:
                one.setdefault(where[0], {})[old] = new
            else:
                every[old] = new
    return every, one


def words(text, table):
    return WORD.sub(lambda m: table.get(m[0], m[0]), text)


def camels(text, table):
    return re.sub(r"(?<![\w-])" + CAMEL.pattern + r"(?![\w-])", lambda m: table.get(m[0], m[0]), text)


def outside_strings(line, turn):
    return "".join(p if k % 2 else turn(p) for k, p in enumerate(re.split(r'("(?:[^"\\]|\\.)*")', line)))


def antt(line, table):
    code, dashes, comment = line.partition("--") if line.lstrip().startswith("--") else (line, "", "")
    return outside_strings(code, lambda t: words(t, table)) + dashes + camels(comment, table)


def rust(line, table):
    return outside_strings(line, lambda t: camels(t, table))


def edit(text, table):
    out, turn = [], rust
    for line in text.split("\n"):
        if line.startswith("file: "):
            turn = antt if line.endswith(".antt") else rust
            out.append(line)
        else:
            out.append(turn(line, table))
    return "\n".join(out)


def spans(text, table):
    return re.sub(r"`[^`\n]+`", lambda m: "`" + words(m[0][1:-1], table) + "`", text)


def turned(path, text, table):
    if path.endswith(".antt"):
        return "\n".join(antt(line, table) for line in text.split("\n"))
    if path.endswith(".rt"):
        return "\n".join(rust(line, table) for line in text.split("\n"))
    if path.endswith(".edit"):
        return edit(text, table)
    return spans(text, table)


def main():
    if os.path.exists(os.path.join("docs", "PORT.md")):
        print("respell: done before, as docs/PORT.md says", file=sys.stderr)
        return 2
    every, one = rows()
    paths = ["README.md"] + [os.path.join("docs", f) for f in sorted(os.listdir("docs")) if f.endswith(".md")]
    for folder, dirs, files in os.walk("crates"):
        dirs[:] = sorted(d for d in dirs if d != "out")
        paths += [os.path.join(folder, f) for f in sorted(files) if f.endswith((".antt", ".rt", ".edit"))]
    for path in paths:
        with open(path, encoding="utf-8") as f:
            text = f.read()
        new = turned(path, text, every | one.get(path, {}))
        if new != text:
            with open(path, "w", encoding="utf-8") as f:
                f.write(new)
    return 0


if __name__ == "__main__":
    sys.exit(main())
