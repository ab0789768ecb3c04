#!/usr/bin/env python3
"""Spells the repository's own definitions and lemmas as Rattle's library does: words in snake case, a dash between two names.

usage: tools/respell.py      once, at the top, right after the kit's port.py

tools/respell.tsv has a row for each name, old and new. A name turns in all .antt files and .edit files, in the clauses
and `ghost use` lines of .rt files, and in the code spans of the documents. Functions, strings, inputs and outputs keep
their names: a row's old name has a capital inside or a dash, so that no name of the code is spelled like it; the few
old names without either turn in .antt files alone.
"""

import os
import re
import sys

TOP = os.path.dirname(os.path.dirname(os.path.realpath(__file__)))
WORD = re.compile(r'[^\s(){}.;,@"«»\[\]`]+')
COMMENT = re.compile(r"(?<![^\s(){}.;,])--[^\n]*")
CODE_SPAN = re.compile(r"`[^`\n]+`")
MODULE = re.compile(r"Rattle\.[\w.+]*\w(?=\.\{|\s|$|\.)")


def rows():
    with open(os.path.join(TOP, "tools", "respell.tsv"), encoding="utf-8") as f:
        return dict(line.rstrip("\n").split("\t") for line in f if line.strip())


def turned(text, table):
    return WORD.sub(lambda m: table.get(m[0], m[0]), text)


def spans(text, table):
    return CODE_SPAN.sub(lambda m: turned(m[0], table), text)


def antt(text, table):
    """A module's path stays as it is: its last parts may be the names of Rust items."""
    out, at = [], 0
    for line in text.splitlines(keepends=True):
        note = COMMENT.search(line)
        code, rest = (line[: note.start()], line[note.start() :]) if note else (line, "")
        path = re.match(r"\s*(?:pub )?use (Rattle\.[^\s{]*[^\s{.])", code)
        if path:
            code = code[: path.end()] + turned(code[path.end() :], table)
        else:
            code = turned(code, table)
        out.append(code + comment(rest, table))
    return "".join(out)


def comment(text, table):
    """In a comment, names with a capital inside turn wherever they stand, and names with a dash in code spans."""
    humped = {a: b for a, b in table.items() if "-" not in a and re.search(r"[a-z][A-Z]", a)}
    return turned(spans(text, table), humped)


def rust(text, table):
    distinct = {a: b for a, b in table.items() if re.search(r"[a-z][A-Z]|-|\?|→", a)}
    return turned(text, distinct)


def edit(text, table, is_rust):
    return rust(text, table) if is_rust else turned(text, table)


def main():
    table = rows()
    for folder, dirs, files in os.walk(TOP):
        dirs[:] = sorted(d for d in dirs if d not in ("out", "target", ".git", "tools"))
        for name in sorted(files):
            path = os.path.join(folder, name)
            inside = path.startswith(os.path.join(TOP, "crates", ""))
            kind = name.rsplit(".", 1)[-1]
            if not (inside and kind in ("antt", "rt", "edit") or kind == "md"):
                continue
            with open(path, encoding="utf-8") as f:
                was = f.read()
            if kind == "antt":
                new = antt(was, table)
            elif kind == "rt":
                new = rust(was, table)
            elif kind == "edit":
                new = edit(was, table, re.search(r"(?m)^file: src/", was))
            else:
                new = spans(was, table)
            if new != was:
                with open(path, "w", encoding="utf-8") as f:
                    f.write(new)
    return 0


if __name__ == "__main__":
    sys.exit(main())
